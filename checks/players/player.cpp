// Plays sessions through `examples/client.hpp`: player AT_LEAST SCRIPT COMMAND.. (see checks/clients)
#include "client.hpp"

#include <algorithm>
#include <chrono>
#include <fstream>
#include <iostream>

using namespace wishkabe;

namespace {

bool take(Cell& cell, unsigned session, const std::string& step) {
  if (step.rfind("cancel ", 0) == 0) return cell.cancel(std::stoul(step.substr(7))), true;
  const std::string reply = session % 2 == 0 ? cell.wait(session, step) : cell.ask(session, step);
  return reply == "granted" || reply == "refused cancelled";
}

/// Asks for the steps of a session in turn, each until it is granted or given up. One of an even number waits for room; the step `cancel K`
/// lets session K wait no longer.
void go(Cell& cell, unsigned session, const std::vector<std::string>& steps) {
  for (std::uint64_t at = cell.grants(session); at < steps.size(); ++at) {
    for (int rest = 1; !take(cell, session, steps[at]); rest = std::min(2 * rest, 100)) {
      std::this_thread::sleep_for(std::chrono::milliseconds(rest));
    }
  }
}

/// All sessions at the same time. The first exception of one of them comes out.
void play(Cell& cell, const std::map<unsigned, std::vector<std::string>>& scripts) {
  std::vector<std::future<void>> sessions;
  for (const auto& [session, steps] : scripts) {
    sessions.push_back(std::async(std::launch::async, go, std::ref(cell), session, steps));
  }
  for (std::future<void>& session : sessions) session.get();
}

/// Prints how many parts a list has, and each with this word.
void print(const std::string& list, const std::string& word, const std::vector<Part>& parts) {
  std::cout << list << " " << parts.size() << "\n";
  for (const Part& it : parts) {
    std::cout << word << " " << it.job << " " << it.type << " " << it.place << " " << it.resource << (it.is_done ? " done\n" : " waiting\n");
  }
}

void play_all(std::uint64_t at_least, const char* script, const std::vector<std::string>& command) {
  std::map<unsigned, std::vector<std::string>> scripts;
  std::ifstream file(script);
  unsigned session;
  for (std::string step; file >> session && std::getline(file >> std::ws, step);) scripts[session].push_back(step);
  Cell cell(command, at_least);
  play(cell, scripts);
  std::cout << "seen " << cell.seen() << "\nleft " << cell.left() << "\nwhy " << cell.why("load 1 P1") << "\n";
  print("parts", "part", cell.parts());
  print("jobs", "job", cell.jobs("load 1 P1"));
  for (const std::string& line : cell.close()) std::cout << line << "\n";
}

}  // namespace

int main(int count, char** words) {
  try {
    play_all(std::stoull(words[1]), words[2], {words + 3, words + count});
  } catch (const Behind& behind) {
    std::cout << "behind " << behind.status << " " << behind.line << "\n";
  } catch (const Stopped& stopped) {
    std::cout << "stopped " << stopped.status << " " << stopped.line << "\n";
  } catch (const NoRequest& line) {
    std::cout << "no request " << line.what() << "\n";
  } catch (const SharedSession&) {
    std::cout << "shared session\n";
  }
}
