// The table program and the engine's door, on top of the rules.
#include "graph.hpp"
#include "room.hpp"

#include <initializer_list>

static const std::string OUTPUT_HEADER = "job,subtask,deadline,finish,slack";
static const std::string LINE_END = "\r\n";

// ---------------------------------------------------------------- the table's reader

// 1 to 10 decimal digits of value at most 4,294,967,295, bare or in double quotes.
static std::optional<u32> read_field(std::string field) {
    if (field.size() >= 2 && field.front() == '"' && field.back() == '"')
        field = field.substr(1, field.size() - 2);
    if (field.empty() || field.size() > 10) return {};
    u64 value = 0;
    for (char c : field) {
        if (c < '0' || c > '9') return {};
        value = value * 10 + static_cast<u64>(c - '0');
    }
    if (value > 4'294'967'295) return {};
    return static_cast<u32>(value);
}

static std::vector<std::string> split_at_commas(const std::string& line) {
    std::vector<std::string> fields(1);
    for (char c : line) {
        if (c == ',')
            fields.emplace_back();
        else
            fields.back().push_back(c);
    }
    return fields;
}

// A record's six numbers, or nothing if it is malformed.
static std::optional<List> read_record(const std::string& line) {
    const std::vector<std::string> fields = split_at_commas(line);
    if (fields.size() != 6) return {};
    List numbers;
    for (const std::string& field : fields) {
        const std::optional<u32> number = read_field(field);
        if (!number) return {};
        numbers.push_back(*number);
    }
    return numbers;
}

// The text from `at` to the next CR LF or the end, and `at` moved behind it. RFC 4180 lets a quoted
// field hold commas and CR LF. No well-formed field here holds one, and a line or a field cut off
// in the middle of quotes is malformed itself, so lines and fields may be cut without regard to
// them.
static std::string next_line(const std::string& text, std::size_t& at) {
    const std::size_t end = text.find(LINE_END, at);
    const std::string line = text.substr(at, end == std::string::npos ? end : end - at);
    at = end == std::string::npos ? text.size() : end + LINE_END.size();
    return line;
}

// Numbers 10, 11, then 12 and 2 line by line. The refusal's place is here the line to print.
static Refused read_table(const std::string& text, Set& set) {
    if (text.size() > 16'384) return Refusal{.number = 10, .place = 0};

    std::size_t at = 0;
    if (next_line(text, at) != TABLE_HEADER) return Refusal{.number = 11, .place = 1};

    for (std::size_t place = 0; at < text.size(); ++place) {
        if (place == MOST_SUBJOBS) return Refusal{.number = 2, .place = 0};
        const std::optional<List> record = read_record(next_line(text, at));
        if (!record) return Refusal{.number = 12, .place = place + 2};
        set.job.push_back((*record)[0]);
        set.subtask.push_back((*record)[1]);
        set.release.push_back((*record)[2]);
        set.execution.push_back((*record)[3]);
        set.deadline.push_back((*record)[4]);
        set.critical.push_back((*record)[5]);
    }
    return {};
}

// ---------------------------------------------------------------- the table program

// One output line: numbers parted by commas, behind a first field that may be a word.
static std::string output_line(std::string line, std::initializer_list<i64> numbers) {
    for (i64 number : numbers) {
        line += ',';
        line += std::to_string(number);
    }
    return line + LINE_END;
}

static std::string refused_line(u32 number, std::size_t line) {
    return output_line("refused", {number, static_cast<i64>(line)});
}

std::string table(const std::string& text) {
    Set set;
    if (const Refused refused = read_table(text, set))
        return refused_line(refused->number, refused->place);

    List local(set.job.size());
    const Assigned assigned = assign(set, local);
    if (assigned.refused)
        return refused_line(assigned.refused->number, assigned.refused->place + 2);

    const Run run = run_core(set, local, set.execution);
    std::string output = OUTPUT_HEADER + LINE_END;
    for (std::size_t place = 0; place < local.size(); ++place)
        output += output_line(std::to_string(set.job[place]),
                              {set.subtask[place], local[place], run.finish[place],
                               bound(set, place) - local[place]});
    return output;
}

// ---------------------------------------------------------------- the engine's door

u32 number_at(const Bytes& bytes, std::size_t at) {
    return u32{bytes[at]} | u32{bytes[at + 1]} << 8 | u32{bytes[at + 2]} << 16 |
           u32{bytes[at + 3]} << 24;
}

static void append(Bytes& bytes, u32 number) {
    for (int shift = 0; shift < 32; shift += 8) bytes.push_back(static_cast<u8>(number >> shift));
}

// Records of one number per list, one record after the other.
static void decode(const Bytes& records, const std::vector<List*>& lists) {
    for (std::size_t at = 0; at < records.size();)
        for (List* list : lists) {
            list->push_back(number_at(records, at));
            at += 4;
        }
}

static Bytes encode(const std::vector<const List*>& lists) {
    Bytes bytes;
    for (std::size_t place = 0; place < lists.front()->size(); ++place)
        for (const List* list : lists) append(bytes, (*list)[place]);
    return bytes;
}

static Set decode_set(const Bytes& records) {
    Set set;
    decode(records,
           {&set.job, &set.subtask, &set.release, &set.execution, &set.deadline, &set.critical});
    return set;
}

static List decode_list(const Bytes& bytes) {
    List list;
    decode(bytes, {&list});
    return list;
}

Graph decode_graph(const Bytes& executions, const Bytes& arcs) {
    Graph graph;
    decode(executions, {&graph.execution});
    decode(arcs, {&graph.before, &graph.after, &graph.hop});
    return graph;
}

Room decode_room(const Bytes& records, const Bytes& lengths) {
    return {decode_set(records), decode_list(lengths)};
}

Outcome decode_outcome(const Bytes& deadlines, const Bytes& numbers, const Bytes& places) {
    return {decode_list(deadlines), decode_list(numbers), decode_list(places)};
}

Bytes encode(const Set& set) {
    return encode(std::vector{&set.job, &set.subtask, &set.release, &set.execution, &set.deadline,
                              &set.critical});
}

Bytes encode(const List& list) { return encode(std::vector{&list}); }

Bytes encode_arcs(const Graph& graph) {
    return encode(std::vector{&graph.before, &graph.after, &graph.hop});
}

static bool lengths_fit(const Bytes& records, const Bytes& deadlines) {
    return records.size() % 24 == 0 && deadlines.size() == records.size() / 24 * 4;
}

static u32 returned(const Refused& refused) {
    return refused ? refused->number + 65'536 * static_cast<u32>(refused->place) : 0;
}

u32 door_assign(const Bytes& records, Bytes& deadlines) {
    if (!lengths_fit(records, deadlines)) return 1;
    List local = decode_list(deadlines);
    const Assigned assigned = assign(decode_set(records), local);
    deadlines = encode(local);  // after a refusal the list is as it was, and so are the bytes
    return returned(assigned.refused);
}

u32 door_check(const Bytes& records, const Bytes& deadlines) {
    if (!lengths_fit(records, deadlines)) return 1;
    return returned(check(decode_set(records), decode_list(deadlines)));
}

u32 door_critical(const Bytes& executions, const Bytes& arcs, Bytes& results) {
    if (executions.size() % 4 != 0 || arcs.size() % 12 != 0 || results.size() != executions.size())
        return 1;
    List critical = decode_list(results);
    const Refused refused = critical_times(decode_graph(executions, arcs), critical);
    results = encode(critical);
    return returned(refused);
}

u32 door_room(const Bytes& records, const Bytes& lengths, Bytes& deadlines, Bytes& numbers,
              Bytes& places) {
    if (!lengths_fit(records, deadlines) || lengths.size() % 4 != 0 ||
        numbers.size() != lengths.size() || places.size() != lengths.size())
        return 1;
    Outcome outcome = decode_outcome(deadlines, numbers, places);
    const Refused refused = assign_room(decode_room(records, lengths), outcome);
    deadlines = encode(outcome.deadlines);
    numbers = encode(outcome.numbers);
    places = encode(outcome.places);
    return returned(refused);
}
