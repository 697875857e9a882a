// A connection to a server of this folder, on the port PORT of the loopback address: a call is a line of the number of an object, the name and the arguments.
#include <arpa/inet.h>
#include <cstdlib>
#include <netinet/tcp.h>
#include <string>
#include <sys/socket.h>

inline int connect_to_server() {
  int server = socket(AF_INET, SOCK_STREAM, 0), yes = 1;
  sockaddr_in address{};
  address.sin_family = AF_INET;
  address.sin_port = htons(std::atoi(std::getenv("PORT")));
  address.sin_addr.s_addr = htonl(INADDR_LOOPBACK);
  if (connect(server, reinterpret_cast<sockaddr *>(&address), sizeof address)) std::exit(1);
  setsockopt(server, IPPROTO_TCP, TCP_NODELAY, &yes, sizeof yes);
  return server;
}

// Makes a call, and returns the answer. Ends the process if the server is gone.
inline std::string ask(int server, const std::string &call) {
  std::string line = call + "\n", answer;
  if (send(server, line.data(), line.size(), MSG_NOSIGNAL) != ssize_t(line.size())) std::exit(1);
  char bytes[256];
  while (answer.empty() || answer.back() != '\n') {
    ssize_t count = recv(server, bytes, sizeof bytes, 0);
    if (count <= 0) std::exit(1);
    answer.append(bytes, count);
  }
  answer.pop_back();
  return answer;
}
