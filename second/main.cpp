// The second program: docs/RULES.md once more, independently of the library, to hold it to.
#include "commands.hpp"
#include "rearranged.hpp"

#include <cstdlib>
#include <iostream>
#include <sstream>

static int usage() {
    std::cerr
        << "second self                          check this program against docs/RULES.md\n"
           "second cases DIR                     write the cases of trial and of deadlines\n"
           "second whole COUNT SEED DIR          write COUNT random whole tables for trial\n"
           "second table                         answer the table on standard input\n"
           "second rearrange SEED                print the table on standard input with its\n"
           "                                     records in another order\n"
           "second door COUNT SEED [RUNNER ..]   compare COUNT door calls with the archive;\n"
           "                                     RUNNER is the command that starts the runner\n"
           "                                     (or name it in CHAROKTAN_RUNNER)\n";
    return 2;
}

// The runner's command: the words behind COUNT and SEED, or those of the variable.
static std::vector<std::string> runner_command(const std::vector<std::string>& words) {
    if (words.size() > 4) return {words.begin() + 4, words.end()};
    const char* variable = std::getenv("CHAROKTAN_RUNNER");
    std::istringstream stream(variable ? variable : "");
    std::vector<std::string> command;
    for (std::string word; stream >> word;) command.push_back(word);
    return command;
}

static std::string standard_input() {
    std::ostringstream text;
    text << std::cin.rdbuf();
    return text.str();
}

// By the rules, what the table program prints, however long it takes.
static int answer_table() {
    most_looks = ~u64{0};
    std::cout << table(standard_input()) << std::flush;
    return std::cout ? 0 : 1;
}

static int rearrange_table(u64 seed) {
    const std::string text = standard_input();
    Dice dice(seed);
    std::cout << rearranged_text(text, random_order(dice, count_records(text))) << std::flush;
    return std::cout ? 0 : 1;
}

int main(int count, char** arguments) try {
    const std::vector<std::string> words(arguments, arguments + count);
    if (words.size() == 2 && words[1] == "self") return check_self();
    if (words.size() == 2 && words[1] == "table") return answer_table();
    if (words.size() == 3 && words[1] == "rearrange")
        return rearrange_table(std::stoull(words[2]));
    if (words.size() == 3 && words[1] == "cases") return write_cases(words[2]);
    if (words.size() == 5 && words[1] == "whole")
        return write_whole_tables(std::stoull(words[2]), std::stoull(words[3]), words[4]);
    if (words.size() >= 4 && words[1] == "door")
        if (const auto runner = runner_command(words); !runner.empty())
            return compare_door(std::stoull(words[2]), std::stoull(words[3]), runner);
    return usage();
} catch (const std::exception& error) {
    std::cerr << "second: " << error.what() << "\n";
    return 1;
}
