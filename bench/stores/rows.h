// The rows of the comparison: schemas, put lines, the strings of keys, and the lines of a scan, as the proved program has them. Of the types only those of bench/keys.py
// are known: int, bigint and text, each perhaps reversed, and values of type text.
#pragma once
#include <cstdint>
#include <cstdlib>
#include <iostream>
#include <string>
#include <vector>

[[noreturn]] inline void stop(const std::string& why) {
    std::cerr << why << "\n";
    std::exit(1);
}

struct Column {
    enum Kind { Int, BigInt, Text } kind;
    bool reversed;
};

struct Schema {
    std::vector<Column> partition;
    std::vector<Column> row;
};

inline std::vector<Column> columns_of(const std::string& list) {
    std::vector<Column> columns;
    size_t at = 0;
    while (at < list.size()) {
        size_t end = list.find(',', at);
        std::string word = list.substr(at, end == std::string::npos ? end : end - at);
        word.erase(0, word.find_first_not_of(' '));
        bool reversed = word.size() > 9 && word.compare(word.size() - 9, 9, " reversed") == 0;
        if (reversed) word.resize(word.size() - 9);
        if (word == "int") columns.push_back({Column::Int, reversed});
        else if (word == "bigint") columns.push_back({Column::BigInt, reversed});
        else if (word == "text") columns.push_back({Column::Text, reversed});
        else if (!word.empty()) stop("a type that this program doesn't know: " + word);
        if (end == std::string::npos) break;
        at = end + 1;
    }
    return columns;
}

// The schema of a canonical text.
inline Schema schema_of(const std::string& text) {
    size_t first = text.find(';'), second = text.find(';', first + 1);
    if (text.empty() || text[0] != '(' || second == std::string::npos || text.substr(second) != "; text)") stop("no schema of this program: " + text);
    return {columns_of(text.substr(1, first - 1)), columns_of(text.substr(first + 1, second - first - 1))};
}

// ---- strings of keys

inline void put_big(uint64_t bits, int count, std::string& out) {
    for (int i = count - 1; i >= 0; i--) out.push_back(static_cast<char>(bits >> (8 * i)));
}

inline void put_bigint(int64_t number, std::string& out) {
    size_t start = out.size();
    uint64_t value = number < 0 ? static_cast<uint64_t>(-1 - number) : static_cast<uint64_t>(number);
    int count = 1;
    while (count < 9 && value >> (7 * count - 1) != 0) count++;
    // As many ones as there are bytes, and a zero before the number; with nine bytes there is none.
    if (count == 9) {
        out.push_back('\xFF');
        put_big(value | UINT64_C(1) << 63, 8, out);
    } else {
        put_big(value | ((UINT64_C(1) << count) - 1) << (7 * count) , count, out);
    }
    if (number < 0)
        for (size_t i = start; i < out.size(); i++) out[i] = static_cast<char>(~out[i]);
}

// Reads one literal at a place of a line and appends its bytes.
inline size_t put_component(const Column& column, const std::string& line, size_t at, std::string& out) {
    size_t start = out.size();
    if (column.kind == Column::Text) {
        for (at++;; at++) {
            if (line[at] == '\'' && line[++at] != '\'') break;
            if (line[at] == 0) stop("texts with zeros aren't known here");
            out.push_back(line[at]);
        }
        out.push_back(0);
    } else {
        char* end;
        int64_t number = std::strtoll(line.c_str() + at, &end, 10);
        at = end - line.c_str();
        if (column.kind == Column::Int) put_big(static_cast<uint32_t>(number) ^ UINT32_C(0x80000000), 4, out);
        else put_bigint(number, out);
    }
    if (column.reversed)
        for (size_t i = start; i < out.size(); i++) out[i] = static_cast<char>(~out[i]);
    return at;
}

// Reads a list of literals in parentheses.
inline size_t put_list(const std::vector<Column>& columns, const std::string& line, size_t at, std::string& out) {
    if (at >= line.size() || line[at] != '(') stop("no list in " + line);
    at++;
    for (const Column& column : columns) {
        while (line[at] == ' ' || line[at] == ',') at++;
        out.push_back('\x40');
        at = put_component(column, line, at, out);
    }
    if (line[at] != ')') stop("no end of a list in " + line);
    out.push_back('\x38');
    return at + 1;
}

// Reads `P C` from a place on, and gives the place behind it.
inline size_t put_key(const Schema& schema, const std::string& line, size_t at, std::string& key) {
    at = put_list(schema.partition, line, at, key);
    while (line[at] == ' ') at++;
    return put_list(schema.row, line, at, key);
}

// Reads a put line; false where it is none.
inline bool read_put(const Schema& schema, const std::string& line, std::string& key, std::string& value) {
    if (line.compare(0, 4, "put ") != 0) return false;
    key.clear();
    value.clear();
    size_t at = put_key(schema, line, 4, key);
    if (line.compare(at, 4, " = '") != 0) return false;
    for (at += 4; at < line.size(); at++) {
        if (line[at] == '\'' && line[++at] != '\'') return true;
        value.push_back(line[at]);
    }
    return false;
}

// ---- lines of a scan

inline size_t print_bigint(const std::string& key, size_t at, uint8_t turned, std::string& out) {
    auto byte = [&](size_t i) { return static_cast<uint8_t>(key[i]) ^ turned; };
    uint8_t sign = byte(at) < 0x80 ? 0xFF : 0;
    auto plain = [&](size_t i) { return static_cast<uint8_t>(byte(i) ^ sign); };
    int count = 1;
    while (count < 8 && plain(at) >> (7 - count) & 1) count++;
    if (count == 8 && plain(at) == 0xFF) count = plain(at + 1) & 0x80 ? 9 : 8;
    uint64_t value = 0;
    for (int i = 0; i < count; i++) value = value << 8 | plain(at + i);
    value &= count == 9 ? ~(UINT64_C(1) << 63) : (UINT64_C(1) << (7 * count - 1)) - 1;
    out += std::to_string(sign ? -1 - static_cast<int64_t>(value) : static_cast<int64_t>(value));
    return at + count;
}

inline size_t print_component(const Column& column, const std::string& key, size_t at, std::string& out) {
    uint8_t turned = column.reversed ? 0xFF : 0;
    if (column.kind == Column::BigInt) return print_bigint(key, at, turned, out);
    if (column.kind == Column::Int) {
        uint32_t number = 0;
        for (int i = 0; i < 4; i++) number = number << 8 | (static_cast<uint8_t>(key[at + i]) ^ turned);
        out += std::to_string(static_cast<int32_t>(number ^ UINT32_C(0x80000000)));
        return at + 4;
    }
    out.push_back('\'');
    for (; (static_cast<uint8_t>(key[at]) ^ turned) != 0; at++) {
        char letter = static_cast<char>(static_cast<uint8_t>(key[at]) ^ turned);
        if (letter == '\'') out.push_back('\'');
        out.push_back(letter);
    }
    out.push_back('\'');
    return at + 1;
}

inline size_t print_list(const std::vector<Column>& columns, const std::string& key, size_t at, std::string& out) {
    const char* before = "";
    out.push_back('(');
    for (const Column& column : columns) {
        out += before;
        before = ", ";
        at = print_component(column, key, at + 1, out);
    }
    out.push_back(')');
    return at + 1;
}

inline void print_value(const std::string& value, std::string& out) {
    out.push_back('\'');
    for (char letter : value) {
        if (letter == '\'') out.push_back('\'');
        out.push_back(letter);
    }
    out += "'\n";
}

inline void print_row(const Schema& schema, const std::string& key, const std::string& value, std::string& out) {
    size_t at = print_list(schema.partition, key, 0, out);
    out.push_back(' ');
    print_list(schema.row, key, at, out);
    out += " = ";
    print_value(value, out);
}
