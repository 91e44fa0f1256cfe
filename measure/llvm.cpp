// Measures the time of LLVM's library for names, in one process: `llvm ROUNDS` with the names as lines of standard
// input does what `msvc_bench measure ROUNDS` does with our library. With 0 rounds it prints the text of each name, and
// `llvm whole` prints those of names that it reads to their end.

#include <algorithm>
#include <chrono>
#include <cstdlib>
#include <cstring>
#include <iostream>
#include <llvm/Config/llvm-config.h>
#include <llvm/Demangle/Demangle.h>
#include <string>
#include <vector>

using Names = std::vector<std::string>;

// Returns the text of a name, which the caller frees, or null. `read` gets the number of bytes that were read.
static char *demangle(const std::string &name, std::size_t *read = nullptr) {
  int status;
#if LLVM_VERSION_MAJOR < 17
  return llvm::microsoftDemangle(name.c_str(), read, nullptr, nullptr, &status);
#else
  return llvm::microsoftDemangle(name, read, &status);
#endif
}

// Prints the names that have a text, a line each: the name, a tab, and the text. `whole` leaves out names with bytes
// that aren't read.
static void print_demangled(const Names &names, bool whole) {
  for (const std::string &name : names) {
    std::size_t read = 0;
    if (char *text = demangle(name, &read)) {
      if (!whole || read == name.size())
        std::cout << name << '\t' << text << '\n';
      std::free(text);
    }
  }
}

// Makes one round. Returns the bytes of the texts of all names.
static std::size_t length_of_texts(const Names &names) {
  std::size_t bytes = 0;
  for (const std::string &name : names) {
    if (char *text = demangle(name)) {
      bytes += std::strlen(text);
      std::free(text);
    }
  }
  return bytes;
}

// Demangles all names in each round; prints the nanoseconds of the fastest round and the bytes of its texts.
static void measure(const Names &names, long rounds) {
  using Clock = std::chrono::steady_clock;
  auto fastest = Clock::duration::max();
  std::size_t bytes = 0;
  for (long round = 0; round < rounds; round++) {
    auto start = Clock::now();
    bytes = length_of_texts(names);
    fastest = std::min(fastest, Clock::now() - start);
  }
  auto nanoseconds = std::chrono::nanoseconds(fastest).count();
  std::cout << nanoseconds << ' ' << bytes << '\n';
}

int main(int count, char **words) {
  Names names;
  for (std::string name; std::getline(std::cin, name);)
    names.push_back(name);
  std::string word = count > 1 ? words[1] : "0";
  long rounds = std::atol(word.c_str());
  if (rounds == 0)
    print_demangled(names, word == "whole");
  else
    measure(names, rounds);
}
