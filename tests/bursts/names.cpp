// Names that branches claim, for tests/bursts.py. In one process (--shared) a claim looks and stores under one lock, or under two (--racy). In processes names
// are bytes that all map, and a claim exchanges one, or loads it and then stores it (--racy).
// g++ -O1 -pthread -o names names.cpp
#include "../../examples/clients/pst_client.hpp"
#include <mutex>
#include <set>

std::mutex lock;
std::set<char> names;
std::atomic<bool> *bytes; // not null in processes
std::atomic<int> calls;

void map_bytes() {
  std::string path = std::string(std::getenv("TMPDIR")) + "/names-" + std::getenv("PST_WORKER");
  int file = open(path.c_str(), O_RDWR | O_CREAT, 0600);
  if (ftruncate(file, 256)) std::exit(1);
  bytes = static_cast<std::atomic<bool> *>(mmap(nullptr, 256, PROT_READ | PROT_WRITE, MAP_SHARED, file, 0));
}

bool claimed(char name) {
  if (bytes) return bytes[int(name)];
  std::lock_guard<std::mutex> held(lock);
  return names.count(name);
}

bool claim(char name, bool is_racy) {
  if (is_racy && claimed(name)) return false;
  if (bytes) return !bytes[int(name)].exchange(true) || is_racy;
  std::lock_guard<std::mutex> held(lock);
  return names.insert(name).second || is_racy;
}

void reset() {
  std::lock_guard<std::mutex> held(lock);
  names.clear();
  for (int at = 0; bytes && std::getenv("PST_BRANCH")[0] == '1' && at < 256; at++) bytes[at] = false;
}

int main(int count, char **) {
  bool is_racy = count > 1;
  auto answer = [=](const std::string &line) -> std::string {
    char name;
    int size;
    if (std::sscanf(line.c_str(), "[\"claim\",\"%c\"]", &name) == 1) return claim(name, is_racy) ? "true" : "false";
    if (std::sscanf(line.c_str(), "[\"claimed\",\"%c\"]", &name) == 1) return claimed(name) ? "true" : "false";
    if (std::sscanf(line.c_str(), "[\"text\",%d]", &size) == 1) return '"' + std::string(size, 'x') + '"';
    if (line == "[\"count\"]") return std::to_string(++calls);
    if (line == "[\"unknown\"]") return "unknown: as asked";
    if (line == "[\"end\"]") _exit(3);
    if (line != "[\"reset\"]") return "failed: as asked";
    reset();
    return "0";
  };
  if (std::getenv("PST_PIPES")) serve(answer);
  else map_bytes(), serve_branch(answer);
}
