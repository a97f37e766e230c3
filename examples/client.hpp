// A client of `wishkabe serve` in C++17, to be copied: this header alone, for POSIX systems; link with -pthread.
//
//     wishkabe::Cell cell({"wishkabe", "serve", "cell.toml", "journal"});
//     std::string reply = cell.ask(1, "load 7 A");  // "granted", or "refused saturated M2 1 of 1"
//     reply = cell.wait(1, "move 7");  // it waits while there is no room: "granted", or "refused not-processed"
//
// A `Cell` is a running server with a socket to it. Threads may share one: each asks under session numbers of its own, from 1 to 65,535,
// and one step of a session at a time, so that no step is lost or taken twice. Where the server is killed it is started again, and the
// steps that wait for their replies go on. The program must not wait for this child itself, as a handler of SIGCHLD for all children does.
#pragma once

#include <sys/socket.h>
#include <sys/wait.h>
#include <unistd.h>

#include <atomic>
#include <cerrno>
#include <chrono>
#include <cstdint>
#include <cstdio>
#include <deque>
#include <future>
#include <map>
#include <mutex>
#include <optional>
#include <set>
#include <sstream>
#include <stdexcept>
#include <string>
#include <thread>
#include <vector>

namespace wishkabe {
/// The server has ended for a cause that a new start need not mend: its exit status, and the last line that it printed.
struct Stopped : std::runtime_error {
  Stopped(int status, const std::string& line)
      : runtime_error("the server has ended with status " + std::to_string(status) + ": " + line), status(status), line(line) {}
  int status;  ///< Above 128 where a signal killed it, and 127 where it can't be started.
  std::string line;
};
/// The journal has fewer grants than were seen: it is another one, or has lost some. The status is 6, as of a refused journal.
struct Behind : Stopped { using Stopped::Stopped; };
/// This line asks nothing: its words are none of the conversation, or name what the cell doesn't have. Nothing is changed.
struct NoRequest : std::invalid_argument { using invalid_argument::invalid_argument; };
/// Another client asks under this session number, so its count doesn't tell whose step was granted.
struct SharedSession : std::logic_error { using logic_error::logic_error; };

/// A part in the cell: its type, its place of the route, the resource there, and whether its work there is done.
struct Part {
  std::uint32_t job;
  std::string type, resource;
  unsigned place;
  bool is_done;
};

/// A running server, and how many steps of each session were granted.
class Cell {
 public:
  /// Starts the server by these words. Its journal has to have `at_least` so many grants: what `seen` said in an earlier run.
  explicit Cell(std::vector<std::string> command, std::uint64_t at_least = 0) : command_(std::move(command)), seen_(at_least) {
    start();
    reader_ = std::thread([this] { read_replies(); });
  }
  /// Closes the conversation. Who wants to know how it ended calls `close` before.
  ~Cell() { try { close(); } catch (const std::exception&) {} }

  /// Asks for a step of a session: `granted` or `refused WHY`.
  std::string ask(unsigned session, const std::string& step) { return take(session, " " + step); }
  /// The same, but it waits while there is no room. A refusal has another reason then, or `cancel` or `close` ended the wait.
  std::string wait(unsigned session, const std::string& step) {
    struct Call {
      Call(Cell& of, unsigned one) : cell(of), session(one) { const std::lock_guard lock(cell.state_); cell.waits_.insert(session); }
      ~Call() { const std::lock_guard lock(cell.state_); cell.waits_.erase(session); }
      Cell& cell;
      const unsigned session;
    } call(*this, session);
    return take(session, " wait " + step);
  }
  /// Gives up what a session waits for: its `wait` in another thread answers `refused cancelled`, or what it was told before.
  void cancel(unsigned session) {
    // Where nobody waits, the server doesn't have the line of that call yet, or has it no more.
    while (say(std::to_string(session) + " cancel").value_or("none") == "none" && is_waiting(session))
      std::this_thread::sleep_for(std::chrono::milliseconds(1));
  }
  /// How many steps of a session were granted. A client with a list of steps goes on after so many of them.
  std::uint64_t grants(unsigned session) { return std::stoull(told(std::to_string(session) + " grants")); }
  /// What a step would be told now: `granted` or `refused WHY`. Nothing is changed.
  std::string why(const std::string& step) { return told("why " + step); }
  /// How many parts are in the cell.
  std::uint64_t left() { return std::stoull(told("left")); }
  /// All parts, in the order in which they came to their places.
  std::vector<Part> parts() { return listed("parts"); }
  /// The parts that stand in the way of a step. There are some exactly where it would be refused as `saturated`.
  std::vector<Part> jobs(const std::string& step) { return listed("jobs " + step); }
  /// How many grants the journal has, as far as the replies tell.
  std::uint64_t seen() const { return seen_; }

  /// The reply to a line, after its words, with all lines of a list, or how its wait ended. None: the server was killed before, and is
  /// started again.
  std::optional<std::string> say(const std::string& line) {
    if (line.size() > 66 || line.find('\n') != line.npos) throw NoRequest(line);
    std::unique_lock sending(sending_), state(state_, std::defer_lock);
    if (stopped_) std::rethrow_exception(stopped_);
    state.lock();
    std::string words = line + " ";
    if (const std::size_t at = line.find(' '); line.compare(at == line.npos ? 0 : at, 6, " wait ") == 0) words.erase(at, 5);
    std::future<Reply> reply = waiting_.emplace_back(words, std::promise<Reply>()).second.get_future();
    state.unlock();
    const std::string sent = line + "\n";
    while (send(socket_, sent.data(), sent.size(), MSG_NOSIGNAL) < 0 && errno == EINTR) continue;
    sending.unlock();
    const Reply said = reply.get();
    if (said && begins(*said, "line refused ")) throw NoRequest(line);
    return said ? Reply(said->substr(words.size())) : said;
  }

  /// Ends the conversation, and answers its last lines: how many parts are left, and the plan that brings them out.
  std::vector<std::string> close() {
    std::unique_lock sending(sending_);
    if (!stopped_) shutdown(socket_, SHUT_WR), stopped_ = std::make_exception_ptr(Stopped(0, "the conversation is closed"));
    sending.unlock();
    if (reader_.joinable()) reader_.join();
    if (status_ != 0) std::rethrow_exception(stopped_);
    return lines_;
  }

 private:
  using Reply = std::optional<std::string>;
  using Waiting = std::pair<std::string, std::promise<Reply>>;  // the words with which its reply begins
  static bool begins(const std::string& line, const std::string& with) { return line.compare(0, with.size(), with) == 0; }

  /// Says a line of a session until it is known what came of its step.
  std::string take(unsigned session, const std::string& words) {
    const std::string line = std::to_string(session) + words;
    std::unique_lock lock(state_);
    const auto taken = taken_.extract(session);  // a call that ends by an exception leaves no count, and the next one asks for it
    lock.unlock();
    const std::uint64_t before = taken ? taken.mapped() : grants(session);
    Reply reply = say(line);
    while (!reply) {
      const std::uint64_t now = grants(session);
      if (now < before || now > before + 1) throw SharedSession("another client asks: " + line);
      reply = now > before ? Reply("granted") : say(line);
    }
    lock.lock();
    taken_[session] = before + (*reply == "granted");
    return *reply;
  }

  bool is_waiting(unsigned session) { const std::lock_guard lock(state_); return waits_.count(session) > 0; }

  /// The reply to a line that changes nothing, and so may be said again after a kill.
  std::string told(const std::string& line) { for (;;) if (const Reply reply = say(line)) return *reply; }

  std::vector<Part> listed(const std::string& line) {
    std::istringstream words(told(line));
    std::size_t count;
    words >> count;
    std::vector<Part> parts(count);
    std::string word, work;
    for (Part& part : parts) {
      words >> word >> part.job >> part.type >> part.place >> part.resource >> work;
      part.is_done = work == "done";
    }
    return parts;
  }

  /// Starts the server and waits until it is ready. A few times it may be killed before.
  void start() {
    std::string head;
    for (int tries = 0; tries < 5; ++tries) {
      spawn();
      if (read_line(head) && begins(head, "shift 0 after ")) {
        const std::uint64_t before = seen_.exchange(std::stoull(head.substr(14)));
        if (seen_ >= before) return;
        shutdown(socket_, SHUT_WR), wait_for_end();
        throw Behind(status_ = 6, head + ", where " + std::to_string(before) + " grants were seen");
      }
      if ((status_ = wait_for_end()) <= 128) break;
    }
    throw Stopped(status_, head);
  }

  void spawn() {
    std::vector<char*> words;
    for (std::string& word : command_) words.push_back(word.data());
    words.push_back(nullptr);
    int both[2];
    if (socketpair(AF_UNIX, SOCK_STREAM | SOCK_CLOEXEC, 0, both) != 0) throw Stopped(127, "no socket can be made");
    if ((child_ = fork()) == 0) {
      setsid();  // the Ctrl-C that ends this program doesn't kill it: it ends in order, when its input does
      if (dup2(both[1], 0) == 0 && dup2(both[1], 1) == 1) execvp(words[0], words.data());
      _exit(127);
    }
    ::close(both[1]);
    output_ = fdopen(socket_ = both[0], "r");
  }

  int wait_for_end() {
    int status = 127 << 8;
    while (std::getc(output_) != EOF) continue;
    while (child_ > 0 && waitpid(child_, &status, 0) < 0 && errno == EINTR) continue;
    std::fclose(output_);
    return WIFSIGNALED(status) ? 128 + WTERMSIG(status) : WEXITSTATUS(status);
  }

  /// Reads a line to its end. False: the server has ended, and the line is what it left of one.
  bool read_line(std::string& line) {
    int byte;
    for (line.clear(); (byte = std::getc(output_)) != '\n'; std::clearerr(output_)) {
      if (byte != EOF) line += static_cast<char>(byte);
      else if (!std::ferror(output_) || errno != EINTR) return false;
    }
    return true;
  }

  /// Reads a line, or where it begins a list all lines of that. False: the server has ended, and this is what it left of one.
  bool read_reply(std::string& reply) {
    bool is_whole = read_line(reply);
    if (!is_whole || !(begins(reply, "parts ") || begins(reply, "jobs "))) return is_whole;
    std::string item;
    for (unsigned long due = std::stoul(reply.substr(reply.rfind(' '))); is_whole && due > 0; --due) {
      is_whole = read_line(item);
      reply += "\n" + item;
    }
    return is_whole;
  }

  /// Hands out the replies, which come in the order of the lines, and starts the server again where it was killed.
  void read_replies() {
    for (bool is_over = false; !is_over;) {
      std::string line;
      for (lines_.clear(); read_reply(line);)
        if (!hand_out(line)) lines_.push_back(line);
      if (!line.empty()) lines_.push_back(line);
      const std::lock_guard sending(sending_);
      const std::exception_ptr closed = stopped_;
      is_over = (status_ = wait_for_end()) <= 128;
      if (!closed || status_ != 0) stopped_ = std::make_exception_ptr(Stopped(status_, lines_.empty() ? "" : lines_.back()));
      if (!is_over) try { start(); stopped_ = closed; } catch (const Stopped&) { stopped_ = std::current_exception(), is_over = true; }
      if (!is_over && closed) shutdown(socket_, SHUT_WR);  // the new one tells the last lines
      for (auto& one : ends_) waiting_.push_back(std::move(one.second));
      for (ends_.clear(); !waiting_.empty(); waiting_.pop_front())
        is_over ? waiting_.front().second.set_exception(stopped_) : waiting_.front().second.set_value({});
    }
  }

  /// Hands out a line that is a reply, or the end of a wait. Whether it is one.
  bool hand_out(const std::string& line) {
    const std::lock_guard lock(state_);
    const std::string session = line.substr(0, line.find(' '));
    const auto wait = ends_.find(session);
    if (wait != ends_.end() && begins(line, wait->second.first)) {
      const std::string words = wait->second.first, end = line.substr(words.size());
      if (const bool is_served = end == "served"; is_served || begins(end, "dropped ") || begins(end, "still ")) {
        seen_ += is_served;
        wait->second.second.set_value(words + (is_served ? "granted" : "refused" + end.substr(end.find(' '))));
        ends_.erase(wait);
        return true;
      }
    }
    if (waiting_.empty()) return false;
    const std::string words = waiting_.front().first;
    if (!(begins(line, words) || begins(line, "line refused ")) || line == words + "halted") return false;
    seen_ += line == words + "granted" && !begins(line, "why ");
    if (wait != ends_.end() && words == session + " cancel " && line != words + "none") {
      wait->second.second.set_value(wait->second.first + "refused cancelled");
      ends_.erase(wait);
    }
    if (begins(line, words + "waits ") && session != "job") ends_.emplace(session, std::move(waiting_.front()));
    else waiting_.front().second.set_value(line);
    waiting_.pop_front();
    return true;
  }

  std::vector<std::string> command_, lines_;
  std::map<unsigned, std::uint64_t> taken_;
  std::set<unsigned> waits_;
  std::deque<Waiting> waiting_;
  std::map<std::string, Waiting> ends_;  // of the sessions that wait there
  std::atomic<std::uint64_t> seen_;
  std::mutex sending_, state_;  // a line may block while it is sent, and replies are handed out meanwhile
  std::exception_ptr stopped_;
  std::thread reader_;
  std::FILE* output_ = nullptr;
  int socket_ = -1, status_ = 0;
  pid_t child_ = -1;
};
}  // namespace wishkabe
