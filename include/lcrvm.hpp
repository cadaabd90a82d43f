// lcrvm.h for C++17. A transaction that goes out of scope without a commit is aborted; one that was moved from is none.
// Copies of a store are the same store, which is closed when all of them and its transactions are gone; close() says
// what fails then, a destructor cannot. Calls on a store that was moved from or closed throw.
#ifndef LCRVM_HPP
#define LCRVM_HPP
#include <lcrvm.h>

#include <cstddef>
#include <cstdint>
#include <initializer_list>
#include <memory>
#include <stdexcept>
#include <string>
#include <type_traits>
#include <utility>
namespace lcrvm {
class error : public std::runtime_error {
    lcrvm_fault fault_;
public:
    explicit error(const lcrvm_fault &of)
        : runtime_error(lcrvm_status_text(of.status) + std::string(*of.text ? ": " : "") + of.text), fault_(of) {}
    lcrvm_status status() const noexcept { return fault_.status; }
    const lcrvm_fault &fault() const noexcept { return fault_; }
};
inline void check(lcrvm_status status) { if (status != LCRVM_OK) throw error(*lcrvm_fault_of(nullptr)); }

class store {
    struct handle {
        lcrvm_store *at = nullptr;
        ~handle() { lcrvm_close(at, nullptr); }
    };
    std::shared_ptr<handle> handle_ = std::make_shared<handle>();
    friend class transaction;
public:
    static void create(const std::string &folder, const lcrvm_geometry *geometry = nullptr) {
        lcrvm_options options{};
        options.size = sizeof options;
        options.geometry = geometry;
        check(lcrvm_create(folder.c_str(), &options, nullptr));
    }
    explicit store(const std::string &folder) { check(lcrvm_open(folder.c_str(), nullptr, &handle_->at, nullptr)); }
    lcrvm_store *get() const noexcept { return handle_ ? handle_->at : nullptr; }
    void flush(uint32_t node = 0) const { check(lcrvm_flush(get(), node, nullptr)); }
    void copy(const std::string &folder, const lcrvm_geometry *geometry = nullptr) const
    {
        check(lcrvm_copy(get(), folder.c_str(), geometry));
    }
    void close() {
        lcrvm_status status = lcrvm_close(get(), nullptr);
        if (handle_ && status != LCRVM_BUSY) handle_->at = nullptr;
        check(status);
    }
};

class transaction {
    using segments = std::initializer_list<uint32_t>;
    std::shared_ptr<store::handle> handle_;
    uint32_t node_ = 0, number_ = LCRVM_NO_TRANSACTION;
    lcrvm_store *at() const noexcept { return handle_ ? handle_->at : nullptr; }
public:
    transaction(const store &of, const uint32_t *writing, std::size_t writing_count, const uint32_t *reading,
                std::size_t reading_count, uint32_t node = 0, uint32_t milliseconds = 5000)
        : handle_(of.handle_), node_(node) {
        check(lcrvm_begin(at(), node, &number_, writing, writing_count, reading, reading_count, milliseconds));
    }
    transaction(const store &of, segments writing, segments reading = {}, uint32_t node = 0,
                uint32_t milliseconds = 5000)
        : transaction(of, writing.begin(), writing.size(), reading.begin(), reading.size(), node, milliseconds) {}
    transaction(transaction &&other) noexcept { swap(other); }
    transaction &operator=(transaction &&other) noexcept {
        transaction(std::move(other)).swap(*this);
        return *this;
    }
    ~transaction() { lcrvm_abort(at(), node_, &number_); }
    void swap(transaction &other) noexcept {
        std::swap(handle_, other.handle_);
        std::swap(node_, other.node_);
        std::swap(number_, other.number_);
    }
    void write(uint32_t segment, uint32_t offset, const void *bytes, uint32_t length) {
        check(lcrvm_put(at(), node_, number_, segment, offset, bytes, length));
    }
    void read(uint32_t segment, uint32_t offset, void *bytes, uint32_t length) const {
        check(lcrvm_read(at(), node_, number_, segment, offset, bytes, length));
    }
    const void *bytes(uint32_t segment) const {
        const void *found = nullptr;
        return check(lcrvm_bytes(at(), node_, number_, segment, &found, nullptr)), found;
    }
    void *change(uint32_t segment, uint32_t offset, uint32_t length) {
        void *found = nullptr;
        return check(lcrvm_change(at(), node_, number_, segment, offset, length, &found)), found;
    }
    template <class T> void put(uint32_t segment, uint32_t offset, const T &value) {
        static_assert(std::is_trivially_copyable_v<T>);
        write(segment, offset, &value, sizeof value);
    }
    template <class T> T get(uint32_t segment, uint32_t offset) const {
        static_assert(std::is_trivially_copyable_v<T>);
        T value;
        read(segment, offset, &value, sizeof value);
        return value;
    }
    void commit(bool durable = true) { check(lcrvm_commit(at(), node_, &number_, durable, nullptr)); }
    void abort() { check(lcrvm_abort(at(), node_, &number_)); }
};
inline void swap(transaction &one, transaction &other) noexcept { one.swap(other); }
} // namespace lcrvm
#endif
