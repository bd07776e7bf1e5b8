// A histogram that every invocation counts into.
struct Histogram { bins: array<atomic<u32>, 256>, below: atomic<u32>, above: atomic<u32>, least: atomic<i32> }
struct Levels { low: f32, high: f32 }
