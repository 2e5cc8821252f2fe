// Table texts by hand: the rules' example, every refusal of a table, both sides of each edge.
#include "commands.hpp"
#include "sets.hpp"

std::string plain_table(const Set& set) {
    std::string text = TABLE_HEADER + "\r\n";
    for (std::size_t place = 0; place < set.job.size(); ++place) {
        for (u32 number : {set.job[place], set.subtask[place], set.release[place],
                           set.execution[place], set.deadline[place], set.critical[place]})
            text += std::to_string(number) + ',';
        text.pop_back();
        text += "\r\n";
    }
    return text;
}

// n records that pass, n up to 128: released together, one tick each, room for all.
static std::string records(std::size_t n) {
    std::vector<std::array<u32, 3>> triples(n, {0, 1, 200});
    return plain_table(set_of(triples));
}

static std::string filled_up(std::string text, std::size_t length) {
    text.resize(length, '7');
    return text;
}

// The doors, and behind them letters that nobody reads.
static std::string doors_and_x(std::size_t length) {
    std::string text = doors_table() + "\r\n";
    text.resize(length, 'x');
    return text;
}

static std::string without_last_line_end(const std::string& text) {
    return text.substr(0, text.size() - 2);
}

// What the texts are made of.
static const std::string HEAD = TABLE_HEADER + "\r\n";
static const std::string GOOD = "1,1,0,2,35,0\r\n", GOOD_2 = "2,1,4,2,42,0\r\n";
static const std::string EXAMPLE = HEAD + GOOD + GOOD_2 + "3,1,5,2,39,0\r\n4,1,6,1,35,0\r\n";

// A record on line 3 between two good ones.
static std::string third(const std::string& line) { return HEAD + GOOD + line + "\r\n" + GOOD_2; }

std::vector<NamedText> named_texts() {
    return {
        {"example", EXAMPLE},
        {"example-no-last-line-end", without_last_line_end(EXAMPLE)},
        {"header-alone", HEAD},
        {"header-alone-no-line-end", TABLE_HEADER},
        {"largest", HEAD + "4294967295,0,1000000000,1000000,2000000000,0\r\n"},
        {"critical-times", HEAD + "1,1,0,4,30,10\r\n1,2,4,3,40,30\r\n"},
        {"leading-zeros", HEAD + "0000000001,01,00,0000000002,000000035,0000000000\r\n"},
        {"quotes-all", HEAD + "\"1\",\"1\",\"0\",\"2\",\"35\",\"0\"\r\n" + GOOD_2},
        {"quotes-some", HEAD + "1,\"0000000001\",0,\"2\",35,\"0\""},
        {"records-128", records(128)},
        {"records-128-no-last-line-end", without_last_line_end(records(128))},
        {"doors-128", doors_table()},
        {"years-apart", HEAD + "7,1,1000000000,3,2000000000,0\r\n7,2,5,1000,900000,10\r\n"
                               "7,3,400000000,2,400000009,0\r\n7,4,400000001,2,400000009,4\r\n"},

        {"refused-2-records-129", records(129)},
        {"refused-2-malformed-129th", records(128) + "no record"},
        {"refused-2-empty-129th", records(128) + "\r\n"},
        {"refused-2-bytes-16384", filled_up(records(128), 16'384)},
        {"refused-2-doors-empty-129th", doors_table() + "\r\n\r\n"},
        {"refused-2-doors-bytes-16384", doors_and_x(16'384)},
        {"refused-12-before-2", without_last_line_end(records(128)) + ",\r\n1,1,1,1,1,1\r\n"},

        {"refused-3-release", third("3,1,1000000001,1,2000000000,0")},
        {"refused-3-execution", third("3,1,0,1000001,2000000000,0")},
        {"refused-3-deadline", third("3,1,0,1,2000000001,0")},
        {"refused-3-critical", third("3,1,0,1,10,1000000001")},
        {"refused-3-before-4", HEAD + GOOD + GOOD + "3,1,0,0,10,0\r\n"},
        {"refused-4", HEAD + GOOD + GOOD_2 + "1,1,9,1,90,0\r\n"},
        {"refused-4-leading-zeros", HEAD + GOOD + GOOD_2 + "02,\"001\",9,1,90,0\r\n"},
        {"refused-5", HEAD + "1,1,0,2,1,0\r\n"},
        {"refused-5-negative-bound", HEAD + "1,1,0,1,3,5\r\n"},

        {"refused-10", filled_up(EXAMPLE, 16'385)},
        {"refused-10-before-11", filled_up("", 16'385)},
        {"refused-10-doors", doors_and_x(16'385)},
        {"refused-12-bytes-16384", filled_up(EXAMPLE, 16'384)},

        {"refused-11-empty", ""},
        {"refused-11-bare-lf", TABLE_HEADER + "\n" + GOOD},
        {"refused-11-lone-cr", TABLE_HEADER + "\r" + GOOD},
        {"refused-11-cr-at-end", TABLE_HEADER + "\r"},
        {"refused-11-quoted", "\"job\",subtask,release,execution,deadline,critical\r\n" + GOOD},

        {"refused-12-empty-line", third("")},
        {"refused-12-empty-line-at-end", EXAMPLE + "\r\n"},
        {"refused-12-bare-lf", HEAD + "1,1,0,2,35,0\n" + GOOD_2},
        {"refused-12-lone-cr", third("3,1,0\r,1,90,0")},
        {"refused-12-cr-at-end", HEAD + GOOD + "2,1,4,2,42,0\r"},
        {"refused-12-seven-fields", third("3,1,0,1,90,0,0")},
        {"refused-12-empty-field", third("3,1,,1,90,0")},
        {"refused-12-space-before", third("3, 1,0,1,90,0")},
        {"refused-12-minus", third("3,1,0,1,90,-0")},
        {"refused-12-eleven-digits", third("3,1,0,1,00000000090,0")},
        {"refused-12-4294967296", third("4294967296,1,0,1,90,0")},
        {"refused-12-quote-open", third("3,1,\"0,1,90,0")},
        {"refused-12-quoted-line-end", third("3,1,0,1,\"9\r\n0\",0")},
        {"refused-12-byte-over-127", third("3,1,0,1,9\xB2,0")},
        {"refused-12-before-3", HEAD + "1,1,0,0,1,0\r\n" + GOOD_2 + GOOD_2 + "x\r\n"},
    };
}

std::vector<std::string> further_texts() {
    return {
        // Numbers 2 to 5: the start of a 129th record, the order of the numbers, the line.
        records(128) + "\r",
        records(128) + "1,1,0,0,0,0\r\n1,1,1,1,1,1\r\n",
        third("3,1,0,0,10,0"),
        third("3,1,4294967295,4294967295,4294967295,4294967295"),
        HEAD + "1,1,0,2,1,0\r\n1,1,0,2,1,0\r\n",
        HEAD + GOOD + "2,1,0,40,41,0\r\n",
        // Number 11: a first line that is almost the header.
        filled_up("", 16'384),
        "\r\n",
        TABLE_HEADER + " \r\n" + GOOD,
        "Job,subtask,release,execution,deadline,critical\r\n" + GOOD,
        TABLE_HEADER.substr(0, TABLE_HEADER.size() - 1) + "\r\n" + GOOD,
        TABLE_HEADER + ",class\r\n" + GOOD,
        "\xEF\xBB\xBF" + EXAMPLE,
        GOOD,
        // Number 12: line ends, numbers of fields, what is not a digit, quotes.
        HEAD + GOOD + "2,1,4,2,42,0\n",
        third("3,1,0,1,90,0\r"),
        HEAD + "1,1,0,2,35,0\n\r" + GOOD_2,
        third("3,1,0,1,90"),
        third("3,1,0,1,90,0,"),
        third("3,1,0,1,90,"),
        third("3,1 ,0,1,90,0"),
        third("3,\" 1\",0,1,90,0"),
        third("3,1,+0,1,90,0"),
        third("3,1,0,1.0,90,0"),
        third("3,1,0x0,1,90,0"),
        third("3,1,0,1,9O,0"),
        third("3,1,0,1,\"00000000090\",0"),
        third("3,9999999999,0,1,90,0"),
        third("3,1,\"\",1,90,0"),
        third("3,1,0\",1,90,0"),
        third("3,1,0,1,9\"0,0"),
        third("3,1,\",1,90,0"),
        third("3,1,0,1,\"\"90\"\",0"),
        third("3,1,0,1,\"9\"\"0\",0"),
        third("3,1,0,1,\"9,0\",0"),
        HEAD + GOOD + "2,1,4,2,42,\"0",
        third("3,1,0,1,\"90\"0,0"),
        third(std::string("3,1,0,1,90,0\0", 13)),
        HEAD + GOOD + "x\r\n" + GOOD_2 + "y\r\n",
    };
}
