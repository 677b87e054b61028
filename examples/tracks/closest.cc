// A component in C++: puts out the distance of the closest track, in whole millimetres.
//
// Each line on standard input is a call, and each line on standard output its answer. A line has the tracks in the JSON form of Protocol
// Buffers, so each distance is a number behind this key; inside a text the key's quotes would have backslashes.
#include <algorithm>
#include <cmath>
#include <cstdlib>
#include <iostream>
#include <string>

int main() {
  const std::string key = "\"distance\":";
  for (std::string line; std::getline(std::cin, line);) {
    double least = INFINITY;
    for (auto at = line.find(key); at != std::string::npos; at = line.find(key, at + 1)) {
      least = std::min(least, std::strtod(line.c_str() + at + key.size(), nullptr));
    }
    if (std::isfinite(least)) {
      std::cout << "{\"value\": " << std::llround(1000 * least) << "}\n";
    } else {
      std::cout << "{}\n";
    }
  }
}
