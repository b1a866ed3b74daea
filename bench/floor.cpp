// What reading a mesh file costs at least: the bytes of the file, and one pass over them that turns each
// number into a value. The yardstick of bench/run for msh_count.
//
//   g++ -O2 -std=c++20 floor.cpp -o floor;  ./floor FILE
#include <chrono>
#include <cstdint>
#include <cstdio>
#include <string>

static double seconds() {
    using clock = std::chrono::steady_clock;
    return std::chrono::duration<double>(clock::now().time_since_epoch()).count();
}

int main(int argc, char** argv) {
    if (argc != 2) return 2;
    double start = seconds();
    FILE* file = fopen(argv[1], "rb");
    if (!file) return 6;
    fseek(file, 0, SEEK_END);
    std::string bytes(size_t(ftell(file)), '\0');
    rewind(file);
    if (fread(bytes.data(), 1, bytes.size(), file) != bytes.size()) return 6;
    fclose(file);
    double read = seconds() - start;

    start = seconds();
    double sum = 0;
    const char *at = bytes.data(), *end = at + bytes.size();
    while (at < end) {
        bool minus = *at == '-';
        if (minus) ++at;
        if (at == end || *at < '0' || *at > '9') {
            ++at;
            continue;
        }
        uint64_t whole = 0;
        while (at < end && *at >= '0' && *at <= '9') whole = 10 * whole + uint64_t(*at++ - '0');
        double value = double(whole), unit = 1;
        if (at < end && *at == '.')
            for (++at; at < end && *at >= '0' && *at <= '9'; ++at) value = 10 * value + (*at - '0'), unit *= 10;
        sum += minus ? -value / unit : value / unit;
    }
    double numbers = seconds() - start;
    printf("%.6f %.6f %g\n", read, numbers, sum);
}
