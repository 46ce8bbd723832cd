// Every cause of the header beside its name in the library, and the listing of a file, in C++. It ends with 0 where both agree.
//
// usage: causes [FILE]
#include <cctype>
#include <cstdio>
#include <fstream>
#include <iterator>
#include <string>
#include <vector>

#include "omf.h"

namespace {

// The header's identifier for a name of the program: OMF_NOT_LOAD_FILE for NotLoadFile.
std::string word_of(const std::string &name) {
    std::string word = "OMF";
    for (char c : name) {
        if (std::isupper(static_cast<unsigned char>(c)))
            word += '_';
        word += static_cast<char>(std::toupper(static_cast<unsigned char>(c)));
    }
    return word;
}

// The name of a cause; empty where none has the number.
std::string name_of(uint32_t cause) {
    std::vector<uint8_t> room(1);
    size_t size = 0;
    uint32_t status = omf_cause_name(cause, room.data(), 0, &size);
    if (status != OMF_SMALL)
        return "";
    room.resize(size);
    status = omf_cause_name(cause, room.data(), room.size(), &size);
    return status == OMF_DONE ? std::string(room.begin(), room.end()) : "";
}

const struct {
    uint32_t cause;
    const char *word;
} causes[] = {
#define CAUSE(word) {word, #word}
    CAUSE(OMF_TRUNCATED),
    CAUSE(OMF_BAD_HEADER),
    CAUSE(OMF_UNSUPPORTED),
    CAUSE(OMF_BAD_RECORD),
    CAUSE(OMF_NOT_LOAD_FILE),
    CAUSE(OMF_SEQUENCE),
    CAUSE(OMF_DATA_TOO_LONG),
    CAUSE(OMF_PATCH_OUTSIDE),
    CAUSE(OMF_NO_SUCH_TARGET),
    CAUSE(OMF_DYNAMIC_TARGET),
    CAUSE(OMF_BAD_TABLE),
    CAUSE(OMF_TOO_LONG),
    CAUSE(OMF_ALIGN_FAULT),
    CAUSE(OMF_BAD_LENGTH),
    CAUSE(OMF_BAD_LIBRARY),
    CAUSE(OMF_BAD_RUNTIME),
    CAUSE(OMF_EMPTY),
    CAUSE(OMF_UNRESOLVED),
    CAUSE(OMF_DUPLICATE),
    CAUSE(OMF_ORG_CONFLICT),
    CAUSE(OMF_TOO_MANY_SEGMENTS),
    CAUSE(OMF_SEGMENT_TOO_LONG),
    CAUSE(OMF_NOT_DYNAMIC),
    CAUSE(OMF_CIRCULAR),
    CAUSE(OMF_DIVIDE_BY_ZERO),
    CAUSE(OMF_NOT_RELOCATABLE),
    CAUSE(OMF_DYNAMIC_REFERENCE),
    CAUSE(OMF_OUT_OF_SEGMENT),
    CAUSE(OMF_TOO_MANY_ENTRIES),
    CAUSE(OMF_DOES_NOT_FIT),
    CAUSE(OMF_FILE_TOO_LONG),
    CAUSE(OMF_LINE_TOO_LONG),
    CAUSE(OMF_TOO_MANY_LINES),
    CAUSE(OMF_NO_SUCH_SYMBOL),
    CAUSE(OMF_BAD_SETTING),
    CAUSE(OMF_BAD_ARGUMENTS),
    CAUSE(OMF_NO_SEQUENCE_SYMBOL),
    CAUSE(OMF_UNCLOSED),
    CAUSE(OMF_COUNTER),
    CAUSE(OMF_TOO_NESTED),
    CAUSE(OMF_NOTED),
    CAUSE(OMF_UNKNOWN_OPERATION),
    CAUSE(OMF_OUTSIDE_SEGMENT),
    CAUSE(OMF_BAD_LABEL),
    CAUSE(OMF_BAD_OPERAND),
    CAUSE(OMF_BAD_NUMBER),
    CAUSE(OMF_BAD_MODE),
    CAUSE(OMF_UNKNOWN_CONSTANT),
    CAUSE(OMF_NOT_LISTABLE),
    CAUSE(OMF_BROKEN_PART),
#undef CAUSE
};

// The listing of a file.
bool dump(const char *path) {
    std::ifstream file(path, std::ios::binary);
    std::vector<uint8_t> bytes((std::istreambuf_iterator<char>(file)), std::istreambuf_iterator<char>());
    bytes.reserve(1);
    std::vector<uint8_t> room(1);
    size_t size = 0;
    omf_fault fault = {};
    uint32_t status = omf_dump(bytes.data(), bytes.size(), room.data(), room.size(), &size, &fault);
    if (status == OMF_SMALL) {
        room.resize(size);
        status = omf_dump(bytes.data(), bytes.size(), room.data(), room.size(), &size, &fault);
    }
    if (status == OMF_REFUSED)
        std::printf("refused %s 1 %u %08X\n", name_of(fault.cause).c_str(), fault.segment, fault.at);
    else
        std::fwrite(room.data(), 1, size, stdout);
    return status == OMF_DONE || status == OMF_REFUSED;
}

} // namespace

int main(int count, char **words) {
    uint32_t number = 0;
    for (const auto &row : causes) {
        number++;
        if (row.cause != number || word_of(name_of(number)) != row.word) {
            std::printf("cause %u is %s here and %s in the library\n", number, row.word, name_of(number).c_str());
            return 1;
        }
    }
    if (!name_of(number + 1).empty()) {
        std::printf("the library has a cause %u\n", number + 1);
        return 1;
    }
    return count < 2 || dump(words[1]) ? 0 : 1;
}
