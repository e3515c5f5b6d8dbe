/* A store inside a C++ program, which loads structs of its own, reads between two loads, and merges while it is idle.
 *
 *     c++ -std=c++17 examples/embed.cpp $(pkg-config --cflags --libs tiuvrokk) */
#include <cstring>
#include <iostream>
#include <tiuvrokk.hpp>

constexpr std::uint32_t SENSORS = 100, BATCHES = 100, BATCH = 1000, SENSOR = 7;

// Readings come in the order of time, and are asked for by sensor.
struct Reading {
    std::uint32_t sensor, second;
    double degrees;
};

// Keys are ordered byte by byte, so each number begins at its highest byte.
std::string key_of(std::uint32_t sensor, std::uint32_t second) {
    std::string key;
    for (std::uint32_t number : {sensor, second})
        for (int shift = 24; shift >= 0; shift -= 8) key += static_cast<char>(number >> shift);
    return key;
}

std::pair<std::string, std::string> record_of(const Reading &reading) {
    return {key_of(reading.sensor, reading.second), {reinterpret_cast<const char *>(&reading.degrees), sizeof reading.degrees}};
}

double degrees_of(std::string_view value) {
    double degrees;
    std::memcpy(&degrees, value.data(), sizeof degrees);
    return degrees;
}

// The mean of a sensor's readings.
double mean(const tiuvrokk::Transaction &tx, std::uint32_t sensor) {
    double sum = 0;
    int count = 0;
    for (auto [key, value] : tx.scan(key_of(sensor, 0), key_of(sensor, UINT32_MAX))) {
        sum += degrees_of(value);
        count++;
    }
    return count ? sum / count : 0;
}

std::vector<Reading> batch_of(std::uint32_t number) {
    std::vector<Reading> batch;
    for (std::uint32_t i = 0; i < BATCH; i++)
        batch.push_back({i % SENSORS, (number * BATCH + i) / SENSORS, 20.0 + number % 7});
    return batch;
}

int main() {
    tiuvrokk::Store store;
    std::uint64_t loaded = 0;
    double last = 0;
    for (std::uint32_t number = 0; number < BATCHES; number++) {
        std::vector<std::pair<std::string, std::string>> records;
        for (const Reading &reading : batch_of(number)) records.push_back(record_of(reading));
        auto reader = store.transaction(), writer = store.transaction();
        last = mean(reader, SENSOR);
        try {
            writer.load(records);
        } catch (const tiuvrokk::Busy &busy) {
            // The reader has locked what it read: once it has ended, the load is tried again.
            if (busy.holder() != reader.number()) throw;
            reader.commit();
            loaded += writer.load(records);
        }
        writer.commit();
        // Nothing else is to do until the next batch comes, so some of what isn't merged is.
        store.tidy();
    }
    std::cout << "loaded " << loaded << ", the mean " << last << ", merged " << store.figures().in_final << '\n';
}
