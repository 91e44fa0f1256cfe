// Prints the names of the workload `names` of crates/msvc_workloads: `made COUNT SEED < bench/shapes.txt`. They are
// made as src/shapes.rt and src/random.rt make them there, since that program prints none.

#include <cstdint>
#include <cstdlib>
#include <iostream>
#include <string>
#include <vector>

static const std::uint64_t multiplier = 0x9E3779B97F4A7C15;
static const std::uint64_t round_bits = 0x7FFF;
static const char letters[] = "abcdefghijklmnopqrstuvwxyzCIMST_";

struct Identifier {
  std::size_t start, end;
  std::uint64_t number;
};

struct Shape {
  std::string text;
  std::vector<Identifier> identifiers;
};

// The bits of a number, mixed as by SplitMix64.
static std::uint64_t mixed(std::uint64_t number) {
  number = (number ^ (number >> 30)) * 0xBF58476D1CE4E5B9;
  number = (number ^ (number >> 27)) * 0x94D049BB133111EB;
  return number ^ (number >> 31);
}

// A shape, whose identifiers stand in braces on its line; `number` begins the number of each.
static Shape shape_of(const std::string &line, std::uint64_t number) {
  Shape shape;
  Identifier identifier = {0, 0, number};
  for (unsigned char byte : line) {
    if (byte == '{') {
      identifier = {shape.text.size(), 0, number};
    } else if (byte == '}') {
      identifier.end = shape.text.size();
      shape.identifiers.push_back(identifier);
    } else {
      shape.text.push_back(byte);
      identifier.number = mixed(identifier.number ^ byte);
    }
  }
  return shape;
}

// The name of a shape in a round: each identifier has letters that are drawn for it, five bits each.
static std::string name_of(const Shape &shape, std::uint64_t round) {
  std::string name = shape.text;
  for (const Identifier &identifier : shape.identifiers) {
    std::uint64_t own = identifier.number + round * multiplier;
    std::uint64_t bits = (mixed(own) & ~round_bits) | (own & round_bits);
    for (std::size_t at = identifier.start; at < identifier.end; at++) {
      name[at] = letters[bits % 32];
      bits = bits >> 5 | bits << 59;
    }
  }
  return name;
}

int main(int count, char **words) {
  std::uint64_t names = count > 1 ? std::strtoull(words[1], nullptr, 10) : 0;
  std::uint64_t seed = mixed(count > 2 ? std::strtoull(words[2], nullptr, 10) : 0);
  std::vector<Shape> shapes;
  std::uint64_t start = 0;
  for (std::string line; std::getline(std::cin, line);) {
    shapes.push_back(shape_of(line, seed ^ start));
    start += shapes.back().text.size();
  }
  for (std::uint64_t number = 0; number < names; number++)
    std::cout << name_of(shapes[number % shapes.size()], number / shapes.size()) << '\n';
}
