#version 330 core
// A lit surface, and a few things beside it
#define SCALE(x) /* twice,
   or so */ ((x) * 2.0)
precision mediump float;
layout(location = 0, std140) in vec3 position;
layout(local_size_x = 8, shared) in;
invariant gl_Position, other;
uniform sampler2D image, images[2];
const float weights[3] = float[](0.25, .5, 1e-1f), unit = 1.;
uniform Lights { vec4 at[4], colour; highp mat3x2 turned; } lights[2];
uniform Plain { int plain; };
struct Light { vec3 at; float power[2]; };
const struct { int a; } one = { 1 };
struct Empty { int a; } empty, two;;
varying struct Late { int b; };
Light lamp;
float shade(in vec3 normal, const int[2], Light light[2]);
void none() {}
HIGH vec2 high;
uniform HIGH vec3 higher;

vec4 lit(Light light, vec2 at)
{
    vec4 sum = vec4(0.0), rest[] = { vec4(1), { 2, 3, }, };
    int bits = 0x1F & ~7 | 2 ^ 1 << 3 >> 1u, left = 010;
    for (int i = 0; i < 4 && i != 3 || false; i++, --bits)
        sum += texture(image, at) * light.power[i] / 2.0 - +unit;
    for (bits = 1; bool more = bits >= 2; ) { sum.xyz *= -1.0; continue; }
    for (;;) break;
    while (bits > 0 ^^ true) bits -= 1;
    do { bits /= 2; bits %= 3; } while (bits <= 9);
    if (!true == false) discard;
    if (bits == 1) if (left == 2) bits = 1; else bits = 2;
    else if (bits == 3) while (true) if (left == 1) ; else left = 2;
    else ++bits;
    while (false) if (true) ;
    if (left == 1) bits = (1 + 2) * 3; else if (left == 2) bits--;
    switch (bits) {
    case 1 + 1: bits <<= 1; bits >>= 1; break;
    default: bits &= 1; bits ^= 1; bits |= 1;
    }
    return bits % 2 == 1 ? sum : float[2](1.0, 2.0)[0] * lit(light, at);
}
