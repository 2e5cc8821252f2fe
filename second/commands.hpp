// What the second program does; each returns the exit status.
#pragma once

#include "rules.hpp"

int write_cases(const std::string& folder);
int write_whole_tables(u64 count, u64 seed, const std::string& folder);
int compare_door(u64 count, u64 seed, const std::vector<std::string>& runner);
int check_self();

// Table texts by hand: those with a name are files for the program `deadlines`, and all of them are
// cases of `trial`.
struct NamedText {
    std::string name, text;
};
std::vector<NamedText> named_texts();
std::vector<std::string> further_texts();
std::string doors_table();

// The table text of a set: bare numbers, every line ended.
std::string plain_table(const Set& set);
