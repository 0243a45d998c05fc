// What cvec::concurrent_vector has to say to compilers and to ThreadSanitizer.
#ifndef CVEC_COMPILER_HPP
#define CVEC_COMPILER_HPP

#if defined(__GNUC__)
#define CVEC_APART __attribute__((noinline))
#define CVEC_MOSTLY(condition) __builtin_expect((condition), true)
#define CVEC_ASK(place) __builtin_prefetch(place)
#else
#define CVEC_APART
#define CVEC_MOSTLY(condition) (condition)
#define CVEC_ASK(place) static_cast<void>(place)
#endif

#if __has_include(<compare>)
#include <compare>
#endif
#if defined(__cpp_lib_three_way_comparison) && defined(__cpp_impl_three_way_comparison)
#define CVEC_THREE_WAY
#endif

#if defined(__has_feature)
#if __has_feature(thread_sanitizer)
#define CVEC_UNDER_THREAD_SANITIZER
#endif
#endif
#if defined(__SANITIZE_THREAD__)
#define CVEC_UNDER_THREAD_SANITIZER
#endif
#if defined(CVEC_UNDER_THREAD_SANITIZER)
extern "C" void AnnotateIgnoreWritesBegin(const char *file, int line);
extern "C" void AnnotateIgnoreWritesEnd(const char *file, int line);
extern "C" void __tsan_acquire(void *place);
extern "C" void __tsan_release(void *place);
#endif

namespace cvec {
namespace detail {

// ThreadSanitizer doesn't see by what the threads of the library are in order, which isn't built for it. So it is to pass over what
// a growth copies: else each read of a row that another thread grew would be a race to it. As long as this lives it passes over
// what the thread writes.
class unseen {
  public:
#if defined(CVEC_UNDER_THREAD_SANITIZER)
    unseen() noexcept { AnnotateIgnoreWritesBegin(__FILE__, __LINE__); }
    ~unseen() { AnnotateIgnoreWritesEnd(__FILE__, __LINE__); }
#else
    unseen() noexcept {}
    ~unseen() {}
#endif
    unseen(const unseen &) = delete;
    unseen &operator=(const unseen &) = delete;
};

// What the caller has written in place is shown to it as it is: all that stands before `gives` comes before what stands behind
// `takes` of the same place.
inline void gives([[maybe_unused]] void *place) noexcept {
#if defined(CVEC_UNDER_THREAD_SANITIZER)
    __tsan_release(place);
#endif
}

inline void takes([[maybe_unused]] void *place) noexcept {
#if defined(CVEC_UNDER_THREAD_SANITIZER)
    __tsan_acquire(place);
#endif
}

} // namespace detail
} // namespace cvec

#endif
