// rvvbox for C++20: kernels and sessions that let themselves go, arguments of numbers and of what a span is made of, and exceptions. What
// holds of rvvbox.h holds here: each kernel has one call at a time, and a thread that runs while others do has one of its own, by share().
#ifndef RVVBOX_HPP
#define RVVBOX_HPP

#include "rvvbox.h"

#include <array>
#include <cstdint>
#include <memory>
#include <new>
#include <span>
#include <stdexcept>
#include <string>
#include <type_traits>
#include <utility>
#include <vector>

namespace rvvbox {

using places = std::array<rvvbox_argument, RVVBOX_PLACES>;

/// Why a call is refused: what() names the status, and `why` and `explanation` have what else is known.
class refused : public std::runtime_error {
public:
    explicit refused(const rvvbox_refusal &refusal, std::string text = {})
        : std::runtime_error(std::string("rvvbox: ") + rvvbox_status_name(refusal.status)), why(refusal), explanation(std::move(text)) {}

    rvvbox_refusal why;
    std::string explanation;
};

/// Throws where a call is refused.
inline void expect(const rvvbox_refusal &why) {
    if (why.status == RVVBOX_NO_MEMORY) throw std::bad_alloc();
    if (why.status != RVVBOX_DONE) throw refused(why);
}

/// The same of a call that answers a status alone.
inline void expect(uint32_t status) {
    rvvbox_refusal why{};
    why.status = status;
    expect(why);
}

/// A number, or the bytes of what a span is made of: they are put back where its elements are not const.
template <class T> rvvbox_argument argument(T &&of) {
    if constexpr (std::is_same_v<std::remove_cvref_t<T>, rvvbox_argument>) {
        return of;
    } else if constexpr (std::is_integral_v<std::remove_cvref_t<T>>) {
        return rvvbox_scalar(static_cast<uint32_t>(of));
    } else {
        std::span span(of);
        using element = typename decltype(span)::element_type;
        static_assert(std::is_trivially_copyable_v<element>);
        if constexpr (std::is_const_v<element>) return rvvbox_read(span.data(), span.size_bytes());
        else return rvvbox_buffer(span.data(), span.size_bytes());
    }
}

/// What stands at the places, from a0 on, and nothing at the others.
template <class... T> places arguments(T &&...of) {
    static_assert(sizeof...(T) <= RVVBOX_PLACES);
    return places{argument(std::forward<T>(of))...};
}

/// What a kernel is to take at a place: a number from lo to hi, so many bytes that are put back, or so many that are only read.
inline rvvbox_parameter scalar(uint32_t lo, uint32_t hi) { return {RVVBOX_SCALAR, lo, hi, 0}; }
inline rvvbox_parameter buffer(uint32_t size) { return {RVVBOX_BUFFER, 0, 0, size}; }
inline rvvbox_parameter read(uint32_t size) { return {RVVBOX_READ, 0, 0, size}; }

using parameters = std::array<rvvbox_parameter, RVVBOX_PLACES>;

/// All bytes that a call gives to who asks with room enough: it is asked for their number first.
template <class Call> std::vector<uint8_t> all_of(Call call) {
    std::vector<uint8_t> bytes;
    size_t needed = 0;
    do {
        bytes.resize(needed);
        rvvbox_refusal why;
        call(bytes.data(), bytes.size(), &needed, &why);
        expect(why);
    } while (needed > bytes.size());
    return bytes;
}

/// The image with a certificate's bytes in a note behind it. The certificate is not read.
inline std::vector<uint8_t> attach(std::span<const uint8_t> image, std::span<const uint8_t> certificate) {
    return all_of([=](uint8_t *out, size_t room, size_t *needed, rvvbox_refusal *why) {
        rvvbox_attach(image.data(), image.size(), certificate.data(), certificate.size(), out, room, needed, why);
    });
}

/// The image with the certificate of the plain loop at its entry, which takes these at its places: `make(image, 128, {buffer(4096)})`.
inline std::vector<uint8_t> make(std::span<const uint8_t> image, uint32_t vlen, const parameters &eight) {
    return all_of([=, &eight](uint8_t *out, size_t room, size_t *needed, rvvbox_refusal *why) {
        rvvbox_make(image.data(), image.size(), vlen, eight.data(), out, room, needed, why);
    });
}

/// Why an image is refused, in lines; nothing where it is accepted.
inline std::string explain(std::span<const uint8_t> image, uint32_t vlen) {
    std::string text;
    size_t needed = 0;
    expect(rvvbox_explain(image.data(), image.size(), vlen, nullptr, 0, &needed));
    text.resize(needed);
    expect(rvvbox_explain(image.data(), image.size(), vlen, text.data(), text.size(), &needed));
    return text;
}

/// A run that stands still between two calls, on copies of what it was opened on. It is closed once, and may be opened again then.
class session {
public:
    /// Goes on for at most so many steps, and tells how far the run is.
    rvvbox_progress go_on(uint64_t most) {
        rvvbox_progress told;
        expect(rvvbox_go_on(held.get(), most, &told));
        return told;
    }

    rvvbox_registers registers() {
        rvvbox_registers told;
        expect(rvvbox_registers_of(held.get(), &told));
        return told;
    }

    /// Fills a span with the bytes of the run's memory from an address on.
    void peek(uint32_t address, std::span<uint8_t> into) { expect(rvvbox_peek(held.get(), address, into.data(), into.size())); }

    /// Ends the run wherever it stands, and puts its buffers back to these, as they stand.
    template <class... T> void close(T &&...of) { close_on(arguments(std::forward<T>(of)...)); }

    void close_on(const places &eight) {
        rvvbox_refusal why;
        rvvbox_close(held.get(), eight.data(), &why);
        expect(why);
    }

    rvvbox_session *get() const { return held.get(); }

private:
    friend class kernel;

    struct letting_go {
        void operator()(rvvbox_session *session) const { rvvbox_drop(session); }
    };

    explicit session(rvvbox_session *made) : held(made) {}

    std::unique_ptr<rvvbox_session, letting_go> held;
};

/// An accepted image.
class kernel {
public:
    kernel(std::span<const uint8_t> image, uint32_t vlen) {
        rvvbox_kernel *made = nullptr;
        rvvbox_refusal why;
        uint32_t status = rvvbox_accept(image.data(), image.size(), vlen, &made, &why);
        held.reset(made);
        if (status == RVVBOX_IMAGE || status == RVVBOX_NO_CERTIFICATE || status == RVVBOX_CERTIFICATE || status == RVVBOX_CHECK)
            throw refused(why, explain(image, vlen));
        expect(why);
    }

    /// One more of the same image, for another thread.
    kernel share() {
        rvvbox_kernel *made = nullptr;
        uint32_t status = rvvbox_share(held.get(), &made);
        kernel other(made);
        expect(status);
        return other;
    }

    uint32_t vlen() { return rvvbox_vlen_of(held.get()); }

    std::array<rvvbox_parameter, RVVBOX_PLACES> parameters() {
        std::array<rvvbox_parameter, RVVBOX_PLACES> told;
        expect(rvvbox_parameters_of(held.get(), told.data(), told.size()));
        return told;
    }

    rvvbox_bound bound(const rvvbox_scalars &scalars) {
        rvvbox_bound told;
        expect(rvvbox_bound_of(held.get(), &scalars, &told));
        return told;
    }

    /// Runs once, in at most `max` steps, and answers how many.
    template <class... T> uint64_t run(uint64_t max, T &&...of) { return run_on(arguments(std::forward<T>(of)...), max); }

    uint64_t run_on(const places &eight, uint64_t max, bool ones = false) {
        uint64_t steps = 0;
        rvvbox_refusal why;
        rvvbox_run(held.get(), eight.data(), ones, max, &steps, &why);
        expect(why);
        return steps;
    }

    /// Opens a run of at most `max` steps, which goes on by as many at a time as is asked.
    template <class... T> session open(uint64_t max, T &&...of) { return open_on(arguments(std::forward<T>(of)...), max); }

    session open_on(const places &eight, uint64_t max, bool ones = false) {
        rvvbox_session *made = nullptr;
        rvvbox_refusal why;
        rvvbox_open(held.get(), eight.data(), ones, max, &made, &why);
        session one(made);
        expect(why);
        return one;
    }

    /// The same in a session that there is, in place of its own run. Where that was closed its stack is used again.
    template <class... T> void open_again(session &in, uint64_t max, T &&...of) {
        open_again_on(in, arguments(std::forward<T>(of)...), max);
    }

    void open_again_on(session &in, const places &eight, uint64_t max, bool ones = false) {
        rvvbox_session *made = in.held.release();
        rvvbox_refusal why;
        rvvbox_open(held.get(), eight.data(), ones, max, &made, &why);
        in.held.reset(made);
        expect(why);
    }

    rvvbox_kernel *get() const { return held.get(); }

private:
    struct letting_go {
        void operator()(rvvbox_kernel *kernel) const { rvvbox_free(kernel); }
    };

    explicit kernel(rvvbox_kernel *made) : held(made) {}

    std::unique_ptr<rvvbox_kernel, letting_go> held;
};

} // namespace rvvbox

#endif
