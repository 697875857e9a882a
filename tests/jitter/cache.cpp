// A client of cache.model in one process (--shared): the cache of cache.hpp.
// g++ -O1 -pthread -o cache cache.cpp
#include "../../examples/clients/pst_client.hpp"
#include "cache.hpp"

int main() {
  serve([](const std::string &line) -> std::string {
    if (line == "[\"get\"]") return std::to_string(get());
    int value = 0;
    std::sscanf(line.c_str(), "[\"set\",%d]", &value);
    set(value);
    return "true";
  });
}
