// Random calls of the engine's door (calls.cpp), answered by the archive too and compared byte by
// byte. The archive is x86-64 and may need an emulator, so it is called by a runner process
// (runner.cpp).
#include "calls.hpp"
#include "commands.hpp"

#include <algorithm>
#include <cerrno>
#include <csignal>
#include <cstdio>
#include <iostream>
#include <map>
#include <stdexcept>

#include <sys/wait.h>
#include <unistd.h>

// ---------------------------------------------------------------- the runner process

class Runner {
public:
    explicit Runner(const std::vector<std::string>& command) {
        int requests[2], replies[2];
        if (pipe(requests) != 0 || pipe(replies) != 0) throw std::runtime_error("no pipe");
        process_ = fork();
        if (process_ < 0) throw std::runtime_error("no process");
        if (process_ == 0) {
            dup2(requests[0], STDIN_FILENO);
            dup2(replies[1], STDOUT_FILENO);
            for (int end : {requests[0], requests[1], replies[0], replies[1]}) close(end);
            std::vector<char*> words;
            for (const std::string& word : command)
                words.push_back(const_cast<char*>(word.c_str()));
            words.push_back(nullptr);
            execvp(words[0], words.data());
            std::perror(words[0]);
            _exit(127);
        }
        close(requests[0]);
        close(replies[1]);
        to_ = requests[1];
        from_ = replies[0];
    }
    Runner(const Runner&) = delete;
    Runner& operator=(const Runner&) = delete;
    ~Runner() { end(); }

    // Both say whether the runner is still there.
    bool send(const Bytes& bytes) {
        for (std::size_t done = 0; done < bytes.size();) {
            const ssize_t n = write(to_, bytes.data() + done, bytes.size() - done);
            if (n < 0 && errno == EINTR) continue;
            if (n <= 0) return false;
            done += static_cast<std::size_t>(n);
        }
        return true;
    }
    bool receive(Bytes& bytes) {
        for (std::size_t done = 0; done < bytes.size();) {
            const ssize_t n = read(from_, bytes.data() + done, bytes.size() - done);
            if (n < 0 && errno == EINTR) continue;
            if (n <= 0) return false;
            done += static_cast<std::size_t>(n);
        }
        return true;
    }

    // Lets it end and says how it did.
    std::string end() {
        if (process_ <= 0) return "";
        close(to_);
        close(from_);
        int status = 0;
        waitpid(process_, &status, 0);
        process_ = 0;
        if (WIFSIGNALED(status)) return "ended by signal " + std::to_string(WTERMSIG(status));
        return "ended with status " + std::to_string(WEXITSTATUS(status));
    }

private:
    pid_t process_ = 0;
    int to_ = -1, from_ = -1;
};

// All numbers on the pipe are 32 bits, little-endian. A batch is its length in bytes and its calls;
// a call is kind, placement, the five lengths and the five slices. The reply to a call is what was
// returned and the five slices after the call.
static void append(Bytes& bytes, const Bytes& more) {
    bytes.insert(bytes.end(), more.begin(), more.end());
}

static Bytes as_bytes(const std::vector<Case>& batch) {
    Bytes body;
    for (const auto& [call, reply, again] : batch) {
        List head = {call.kind, call.placement};
        for (const Bytes& slice : call.slices) head.push_back(static_cast<u32>(slice.size()));
        append(body, encode(head));
        for (const Bytes& slice : call.slices) append(body, slice);
    }
    Bytes bytes = encode(List{static_cast<u32>(body.size())});
    append(bytes, body);
    return bytes;
}

static std::optional<Reply> receive_reply(Runner& runner, const Call& call) {
    Bytes number(4);
    Reply reply{0, call.slices};
    if (!runner.receive(number)) return {};
    for (Bytes& slice : reply.slices)
        if (!runner.receive(slice)) return {};
    reply.returned = number_at(number, 0);
    return reply;
}

// ---------------------------------------------------------------- the comparison

static void print(Kind kind, const Slices& slices) {
    const std::vector<std::string>& names = entry(kind).slices;
    for (std::size_t k = 0; k < names.size(); ++k) {
        std::cerr << "  " << names[k] << ", " << slices[k].size() << " bytes:";
        for (u8 byte : slices[k]) std::cerr << " " << unsigned{byte};
        std::cerr << "\n";
    }
}

static void print(const Call& call) {
    std::cerr << "charoktan_" << entry(call.kind).name << ", placement " << call.placement << "\n";
    print(call.kind, call.slices);
}

static void print(const char* name, Kind kind, const Reply& reply) {
    std::cerr << name << ": number " << reply.returned % 65'536 << ", place "
              << reply.returned / 65'536 << "; after the call\n";
    print(kind, reply.slices);
}

// The runner is gone: each call of the batch once more, alone, to name the one that did it.
static void print_crash(const std::vector<std::string>& command, const std::vector<Case>& batch,
                        const std::string& how) {
    std::cerr << "the runner " << how << "\n";
    for (const Case& one : batch) {
        Runner runner(command);
        if (runner.send(as_bytes({one})) && receive_reply(runner, one.call)) continue;
        std::cerr << "alone it " << runner.end() << " on this call:\n";
        print(one.call);
        return;
    }
    std::cerr << "but on none of the batch's calls alone\n";
}

// How often each entry answered with each number, and each set of a room that was not refused.
using Tally = std::map<std::pair<std::string, u32>, u64>;

static void count(Tally& tally, Kind kind, const Reply& reply) {
    ++tally[{entry(kind).name, reply.returned % 65'536}];
    if (kind != ROOM || reply.returned != 0) return;
    const Bytes& numbers = reply.slices[3];
    for (std::size_t at = 0; at < numbers.size(); at += 4)
        ++tally[{"a room's set", number_at(numbers, at)}];
}

static void print(const Tally& tally) {
    for (const auto& [key, times] : tally) {
        std::cout << key.first;
        if (key.second == 0)
            std::cout << ", accepted: ";
        else
            std::cout << ", number " << key.second << ": ";
        std::cout << times << "\n";
    }
}

int compare_door(u64 calls, u64 seed, const std::vector<std::string>& command) {
    std::signal(SIGPIPE, SIG_IGN);  // a runner that is gone shows as a failed write
    constexpr u64 most = 256;
    most_looks = 4'000'000;
    Dice dice(seed);
    Tally tally;
    Runner runner(command);
    u64 done = 0, again_calls = 0;
    std::vector<Case> batch = random_batch(dice, std::min(most, calls));
    while (!batch.empty()) {
        const bool sent = runner.send(as_bytes(batch));
        // The next batch is made while the runner works on this one.
        std::vector<Case> next = random_batch(dice, std::min(most, calls - done - batch.size()));
        for (const auto& [call, reply, again] : batch) {
            const std::optional<Reply> other = sent ? receive_reply(runner, call) : std::nullopt;
            if (!other) {
                print_crash(command, batch, runner.end());
                return 1;
            }
            if (*other != reply) {
                std::cerr << "call " << done << " of seed " << seed << " differs"
                          << (again ? "; it is the call before it once more\n" : "\n");
                print(call);
                print("this program", call.kind, reply);
                print("the archive", call.kind, *other);
                return 1;
            }
            count(tally, call.kind, reply);
            again_calls += again;
            ++done;
        }
        batch = std::move(next);
    }
    print(tally);
    std::cout << done << " door calls of seed " << seed << ", " << again_calls
              << " of them the call before once more: all equal\n";
    return 0;
}
