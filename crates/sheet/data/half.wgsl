struct Half { scale: f16, rest: array<vec2<f16>> }
