"""Makes the manual page and the completions of bash, zsh and fish from `wmod --help`, the words of `wmod check --features help` and the
NAMEs of `wmod explain`. A line of the help or of the words that it cannot parse is an error, so that none is lost when they change.
"""
import collections
import re

# The lines of `wmod --help` that list an action or an option.
ACTION = re.compile(r" {2}(?P<name>\w+) {2,}(?P<says>.+)")
OPTION = re.compile(r" {2,6}(?:-(?P<short>\w), )?--(?P<name>[\w-]+)(?: <(?P<value>\w+)>)? {2,}(?P<says>.+)")
# The help text of an option that lists its values, such as `1, 2 or 3: ..`, and of one that only some actions take.
VALUES = re.compile(r"\d+(?:, \d+)* or \d+\b")
ONLY = re.compile(r"With (`\w+`(?:(?:, | or )`\w+`)*): ")
# A line of the words of `--features`.
FEATURE = re.compile(r"(?P<word>[\w-]+) {2,}(?P<says>.+)")
# the value of an option that names a file
FILE = "FILE"
# the option whose values are words of their own, and the value that lists them
FEATURES, LISTS = "features", "help"

Action = collections.namedtuple("Action", "name says")
Option = collections.namedtuple("Option", "short name value says values only")
Feature = collections.namedtuple("Feature", "word says")
Help = collections.namedtuple("Help", "about actions options names features")


def read_help(text, names, words):
    """Parses the help: the first paragraph, the actions and the options. `names` are the NAMEs of `wmod explain`, and
    `words` is the output of `wmod check --features help`."""
    about, actions, _ = text.split("\n\n", 2)
    options = re.search(r"(?ms)^Options:\n(.*?)\n\n", text)[1]
    actions = [Action(**each(ACTION, line)) for line in actions.split("\n")]
    features = [Feature(**each(FEATURE, line)) for line in words.splitlines()]
    options = [option(features, **each(OPTION, line)) for line in options.split("\n")]
    return Help(about, actions, options, names, features)


def each(form, line):
    found = form.fullmatch(line)
    if not found:
        raise SystemExit(f"texts.py: this line of the help or of the features is not understood: {line}")
    return found.groupdict()


def option(features, short, name, value, says):
    values, only = VALUES.match(says), ONLY.match(says)
    values = re.findall(r"\d+", values[0]) if values else [*(it.word for it in features), LISTS] if name == FEATURES else ()
    return Option(short, name, value, says, values, re.findall(r"\w+", only[1]) if only else ())


def filled(template, texts):
    """Returns the template with each @NAME@ replaced. Fails with `KeyError` if a name has no text."""
    return re.sub(r"@([A-Z]+)@", lambda it: texts[it[1]], template)


def troff(text):
    """Escapes a text for man, with `words` in bold."""
    text = text.replace("\\", r"\e").replace("-", r"\-").replace("'", r"\(aq")
    return re.sub(r"`([^`]*)`", r"\\fB\1\\fR", text)


def man(template, said, version):
    actions = [f".TP\n.B {it.name}\n{troff(it.says)}" for it in said.actions]
    options = []
    for it in said.options:
        short = rf"\fB\-{it.short}\fR, " if it.short else ""
        value = rf" \fI{it.value}\fR" if it.value else ""
        options.append(f".TP\n{short}\\fB\\-\\-{troff(it.name)}\\fR{value}\n{troff(it.says)}")
    features = [f".TP\n.B {troff(it.word)}\n{troff(it.says)}" for it in said.features]
    texts = {"VERSION": version, "ABOUT": troff(said.about), "ACTIONS": "\n".join(actions), "OPTIONS": "\n".join(options), "FEATURES": "\n".join(features)}
    return filled(template, texts)


BASH = """\
# bash completion for wmod; made from `wmod --help`
_wmod() {
  local word=${COMP_WORDS[COMP_CWORD]} before=${COMP_WORDS[COMP_CWORD-1]} action='' it
  local options="@OPTIONS@"
  # bash cuts --limit=7 into three words
  if [ "$word" = = ]; then
    word=''
  elif [ "$before" = = ]; then
    before=${COMP_WORDS[COMP_CWORD-2]}
  fi
  for it in "${COMP_WORDS[@]:1:COMP_CWORD-1}"; do
    case $it in
      @ACTIONS@) action=${action:-$it} ;;
    esac
  done
  case $action in
@ONLY@
  esac
  COMPREPLY=()
  case $before in
@VALUES@
  esac
  case $word in
    -*) mapfile -t COMPREPLY < <(compgen -W "$options" -- "$word") ;;
    *)
      # where nothing is offered, bash completes the name of a file
      if [ -z "$action" ]; then
        mapfile -t COMPREPLY < <(compgen -W "@WORDS@" -- "$word")
      elif [ "$action" = explain ]; then
        # a NAME is no name of a file
        compopt +o default +o bashdefault
        mapfile -t COMPREPLY < <(compgen -W "@NAMES@" -- "$word")
      fi ;;
  esac
}
complete -o bashdefault -o default -F _wmod wmod
"""


def bash(said):
    actions = [it.name for it in said.actions]
    values = [f'    --{it.name}) mapfile -t COMPREPLY < <(compgen -W "{" ".join(it.values)}" -- "$word") && return ;;'
              for it in said.options if it.values]
    # bash completes the name of a file by itself; a number is none
    files = " | ".join(spelled for it in said.options if it.value == FILE for spelled in spellings(it))
    numbers = " | ".join(f"--{it.name}" for it in said.options if it.value not in (None, FILE) and not it.values)
    return filled(BASH, {
        "ACTIONS": " | ".join(actions),
        "WORDS": " ".join(actions),
        "NAMES": " ".join(said.names),
        "OPTIONS": " ".join(f"--{it.name}" for it in said.options if not it.only),
        "ONLY": "\n".join(f'    {action}) options+=" {" ".join(f"--{it.name}" for it in options)}" ;;' for action, options in by_action(said)),
        "VALUES": "\n".join([*values, f"    {files}) return ;;", f"    {numbers}) compopt +o default +o bashdefault && return ;;"]),
    })


def spellings(it):
    """Returns the words that name an option."""
    return [f"-{it.short}", f"--{it.name}"] if it.short else [f"--{it.name}"]


def by_action(said):
    """Returns each action that takes options of its own, with these options."""
    pairs = [(action.name, [it for it in said.options if action.name in it.only]) for action in said.actions]
    return [pair for pair in pairs if pair[1]]


ZSH = """\
#compdef wmod
# made from `wmod --help`
_wmod_actions() {
  local -a actions
  actions=(
@ACTIONS@
  )
  _describe action actions
}
local -a options
options=(
@OPTIONS@
)
@ONLY@
local operand='*:file:_files'
if (( $words[(I)explain] )); then operand='2:NAME:(@NAMES@)'; fi
_arguments $options '1:action:_wmod_actions' $operand
"""


def zsh(said):
    only = [f"if (( $words[(I){action}] )); then options+=({' '.join(map(zsh_option, options))}); fi" for action, options in by_action(said)]
    return filled(ZSH, {
        "ACTIONS": "\n".join("    " + quoted(f"{it.name}:{plain(it.says)}") for it in said.actions),
        "OPTIONS": "\n".join("  " + zsh_option(it) for it in said.options if not it.only),
        "ONLY": "\n".join(only),
        "NAMES": " ".join(said.names),
    })


def zsh_option(it):
    says = "[" + re.sub(r"([\[\]\\:])", r"\\\1", plain(it.says)) + "]"
    values = f"({' '.join(it.values)})" if it.values else "_files" if it.value == FILE else " "
    says, long, short = (f"{says}:{it.value}:{values}", "=", "+") if it.value else (says, "", "")
    if not it.short:
        return quoted(f"--{it.name}{long}{says}")
    # nothing goes with a request for the help or the version
    without = "- *" if it.name in ("help", "version") else f"-{it.short} --{it.name}"
    return f"'({without})'{{-{it.short}{short},--{it.name}{long}}}{quoted(says)}"


def plain(text):
    """Returns the text without backquotes, since zsh may run what is between them."""
    return text.replace("`", "")


def quoted(text):
    """Returns the text in single quotes, as bash and zsh read it."""
    return "'" + text.replace("'", "'\\''") + "'"


def fish(said):
    names = " ".join(it.name for it in said.actions)
    lines = ["# made from `wmod --help`"]
    lines += [fish_line("-f", f"-n 'not __fish_seen_subcommand_from {names}'", f"-a {it.name}", says=it.says) for it in said.actions]
    lines += [fish_line("-f", "-n '__fish_seen_subcommand_from explain'", f"-a '{' '.join(said.names)}'", says="NAME of a refusal")]
    return "\n".join([*lines, *map(fish_option, said.options)]) + "\n"


def fish_option(it):
    words = [f"-s {it.short}"] if it.short else []
    words += [f"-l {it.name}"]
    words += ["-r"] if it.value == FILE else ["-x"] if it.value else []
    words += [f"-a '{' '.join(it.values)}'"] if it.values else []
    words += [f"-n '__fish_seen_subcommand_from {' '.join(it.only)}'"] if it.only else []
    return fish_line(*words, says=it.says)


def fish_line(*words, says):
    text = says.replace("\\", "\\\\").replace("'", "\\'")
    return f"complete -c wmod {' '.join(words)} -d '{text}'"
