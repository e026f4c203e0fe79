(module
  (type $t0 (func (result i32)))
  (func $f0 (type $t0)
    i32.const 255
    i32.extend8_s
  )
  (start 1)
)
