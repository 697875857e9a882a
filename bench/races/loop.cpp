// Drives the case of a server of this folder that races, by two threads: loop CASE SECONDS. CASE is `names`, `lease` or `counter`.
// g++ -O2 -pthread -o loop loop.cpp
#include "loop.hpp"
#include "server.hpp"
#include <cstring>

int servers[2];
std::string answers[2];

bool is_won_twice() { return answers[0] == "true" && answers[1] == "true"; }
bool is_counted_once() { return answers[0] == answers[1]; }
bool is_lease_lost() { return answers[1] == "true" && ask(servers[0], "1 holder") != "2"; }

void claim(int which) { answers[which] = ask(servers[which], "1 claim a"); }
void increase(int which) { answers[which] = ask(servers[which], "1 inc"); }
void lease(int which) {
  ask(servers[which], "1 release 1");
  if (which == 1) answers[which] = ask(servers[which], "1 acquire 2");
}

int main(int, char **words) {
  double seconds = std::atof(words[2]);
  for (int &server : servers) server = connect_to_server();
  auto reset = [] { ask(servers[0], "1 reset"); };
  if (!std::strcmp(words[1], "names")) run_loop(seconds, reset, claim, is_won_twice);
  if (!std::strcmp(words[1], "counter")) run_loop(seconds, reset, increase, is_counted_once);
  if (!std::strcmp(words[1], "lease")) run_loop(seconds, [&] { reset(), ask(servers[0], "1 acquire 1"); }, lease, is_lease_lost);
}
