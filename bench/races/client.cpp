// A client of a server of this folder: each worker has an object of its own, which branch 1 resets.
// g++ -O2 -pthread -o client client.cpp
#include "../../examples/clients/pst_client.hpp"
#include "server.hpp"

int main() {
  int server = connect_to_server();
  const std::string worker = std::getenv("PST_WORKER");
  const bool is_first = pst::number_of("PST_BRANCH") == 1;
  serve_branch([=](const std::string &line) -> std::string {
    if (line == "[\"reset\"]" && !is_first) return "true";
    std::string call = worker;
    for (char byte : line)
      if (byte != ']' && byte != '"') call += byte == '[' || byte == ',' ? ' ' : byte;
    return ask(server, call);
  });
}
