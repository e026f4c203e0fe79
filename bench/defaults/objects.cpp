// Classes with virtual functions, a template, and objects in static memory.
struct Shape {
  virtual long area() const = 0;
  virtual Shape *grown(long by) = 0;
};

struct Square : Shape {
  long side = 1;
  long area() const override { return side * side; }
  Shape *grown(long by) override { side += by; return this; }
};

struct Box : Shape {
  long width = 1, height = 2;
  long area() const override { return width * height; }
  Shape *grown(long by) override { width += by; height -= by / 2; return this; }
};

template <typename T, int N> struct Row {
  T items[N];
  T sum() const {
    T total = 0;
    for (T it : items) total += it;
    return total;
  }
};

static Square square;
static Box box;

extern "C" long areas(long rounds) {
  Shape *shapes[] = {&square, &box};
  Row<long, 16> row = {};
  for (long i = 0; i < rounds; i++) row.items[i & 15] += shapes[i & 1]->grown(i)->area();
  Row<double, 4> halves = {{0.5, (double)rounds, 1.5, 2.5}};
  return row.sum() + (long)halves.sum();
}
