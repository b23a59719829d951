/* The same method as a job program with floating point, as an office would write it.
   It checks nothing: it is meant for jobs in which every record is taken. */

#include <math.h>
#include <stdio.h>
#include <stdlib.h>

enum { SOURCES = 512, RECEIVERS = 64, WALLS = 64, PERIODS = 3 };

struct point {
    double x, y;
};

/* A road by its middle and length or, if it is cut, by its ends; what a metre of it sends out. */
struct source {
    int used, is_cut;
    struct point middle, first, second;
    double length;
    double emission[PERIODS];
    int drives[PERIODS];
};

struct receiver {
    int used;
    struct point place;
    double height;
    double sum[PERIODS];
};

struct wall {
    int used;
    struct point first, second;
    double height;
};

static struct source sources[SOURCES];
static struct receiver receivers[RECEIVERS];
static struct wall walls[WALLS];

/* The walls in use, gathered anew for every call that needs them. */
static struct wall standing[WALLS];
static int standing_count;

static const double weather[PERIODS] = {2.0, 1.0, 0.0};

struct bits {
    const unsigned char *at;
    unsigned long long held;
    int count;
};

static long take(struct bits *bits, int width)
{
    while (bits->count < width) {
        bits->held = bits->held << 8 | *bits->at++;
        bits->count += 8;
    }
    bits->count -= width;
    return (long)(bits->held >> bits->count & ((1ull << width) - 1));
}

static double clamp(double value, double least, double most)
{
    return value < least ? least : value > most ? most : value;
}

static double surface_term(long surface, double speed)
{
    static const double slow[4][3] = {
        {0, 0, 0}, {1, 1.5, 2}, {2, 2.5, 3}, {3, 4.5, 6}};
    static const double fast[5] = {1, -2, -2, -4, -5};
    if (surface > 4)
        return fast[surface - 5];
    return slow[surface - 1][speed < 40 ? 0 : speed < 50 ? 1 : 2];
}

static double wall_term(long kind, double height, double spacing)
{
    if (kind == 1)
        return fmin(4 * height / spacing, 3.2);
    if (kind == 2)
        return fmin(2 * height / spacing, 1.6);
    return 0;
}

static double speed_term(double cars, double trucks, double percent)
{
    double car = 27.7 + 10 * log10(1 + pow(0.02 * cars, 3));
    double truck = 23.1 + 12.5 * log10(trucks);
    double mixed = 100 + (pow(10, (truck - car) / 10) - 1) * percent;
    return car - 37.3 + 10 * log10(mixed / (100 + 8.23 * percent));
}

struct traffic {
    double flow[PERIODS], percent[PERIODS];
};

static struct traffic take_traffic(struct bits *bits)
{
    struct traffic traffic;
    for (int period = 0; period < PERIODS; period++) {
        traffic.flow[period] = take(bits, 24) / 1000.0;
        traffic.percent[period] = take(bits, 10) / 10.0;
    }
    return traffic;
}

static struct traffic take_daily(struct bits *bits)
{
    static const double shares[4][PERIODS] = {
        {0.062, 0.042, 0.014}, {0.062, 0.042, 0.011}, {0.062, 0.042, 0.008}, {0.062, 0.042, 0.011}};
    static const double percents[4][PERIODS] = {
        {25, 35, 45}, {20, 20, 20}, {20, 15, 10}, {10, 6.5, 3}};
    long class = take(bits, 2);
    double daily = take(bits, 18);
    struct traffic traffic;
    for (int period = 0; period < PERIODS; period++) {
        traffic.flow[period] = shares[class][period] * daily;
        traffic.percent[period] = percents[class][period];
    }
    return traffic;
}

static struct point take_point(struct bits *bits)
{
    struct point point;
    point.x = take(bits, 24) / 100.0;
    point.y = take(bits, 24) / 100.0;
    return point;
}

static void read_source(struct source *s, struct bits *bits, long kind)
{
    static const double reflections[5] = {0, -1, -2, -4, -8};
    s->is_cut = kind == 7;
    if (s->is_cut) {
        s->first = take_point(bits);
        s->second = take_point(bits);
    } else {
        s->middle = take_point(bits);
        s->length = take(bits, 17) / 100.0;
    }
    int lanes = take(bits, 1) ? 2 : 1;
    double cars = clamp(take(bits, 8), 30, 130);
    double trucks = clamp(take(bits, 8), 30, 80);
    double fixed = surface_term(take(bits, 4), cars);
    double steep = (take(bits, 8) & 127) / 10.0;
    fixed += steep > 5 ? 0.6 * steep - 3 : 0;
    fixed += reflections[take(bits, 3)];
    long walls = take(bits, 2);
    double height = take(bits, 12);
    double spacing = take(bits, 14);
    fixed += wall_term(walls, height, spacing);
    struct traffic traffic = kind == 6 ? take_daily(bits) : take_traffic(bits);
    for (int period = 0; period < PERIODS; period++) {
        double flow = traffic.flow[period] / lanes;
        double percent = traffic.percent[period];
        s->drives[period] = flow > 0;
        if (flow > 0)
            s->emission[period] = 37.3 + 10 * log10(flow * (1 + 0.082 * percent)) +
                                  speed_term(cars, trucks, percent) + fixed;
    }
    s->used = 1;
}

/* The squared distance of a receiver from a place on the road, on the map. */
static double square_on_map(const struct receiver *r, struct point place)
{
    double dx = place.x - r->place.x, dy = place.y - r->place.y;
    return dx * dx + dy * dy;
}

/* The same in space. */
static double square_in_space(const struct receiver *r, double on_map)
{
    double dz = r->height - 0.5;
    return on_map + dz * dz;
}

/* What a wall takes that is met after a part of the way. */
static double screen(const struct wall *w, const struct receiver *r, double part, double on_map,
                     double way)
{
    double before = part * on_map, behind = on_map - before;
    double straight = 0.5 + part * (r->height - 0.5);
    if (w->height < straight)
        return 0;
    double bend = way <= 125 ? 1000 : 8 * way;
    double bent = straight + before * behind / (2 * bend) * (way / on_map) * (way / on_map);
    double up = w->height - 0.5, down = r->height - w->height;
    double bent_up = bent - 0.5, bent_down = r->height - bent;
    double before_square = before * before, behind_square = behind * behind;
    double detour = sqrt(before_square + up * up) + sqrt(behind_square + down * down) -
                    sqrt(before_square + bent_up * bent_up) -
                    sqrt(behind_square + bent_down * bent_down);
    return detour > -1.0 / 30 ? 10 * log10(3 + 60 * detour) : 0;
}

/* What the wall takes that is in the way of a piece, if there is one. */
static double screening(const struct receiver *r, struct point middle, double on_map, double way)
{
    double dx = r->place.x - middle.x, dy = r->place.y - middle.y;
    for (int at = 0; at < standing_count; at++) {
        const struct wall *w = &standing[at];
        double x1 = w->first.x - middle.x, y1 = w->first.y - middle.y;
        double x2 = w->second.x - middle.x, y2 = w->second.y - middle.y;
        double side = dx * y1 - dy * x1, other_side = dx * y2 - dy * x2;
        if (side * other_side > 0 || side == other_side)
            continue;
        double part = (x1 * y2 - y1 * x2) / (other_side - side);
        if (part > 0 && part < 1)
            return screen(w, r, part, on_map, way);
    }
    return 0;
}

/* Adds (sign 1) or takes away (sign -1) what a piece of a source brings to a receiver. */
static void piece(const struct source *s, struct receiver *r, struct point middle, double length,
                  double square_map, double sign)
{
    double square = square_in_space(r, square_map);
    double on_map = sqrt(square_map), way = sqrt(square);
    double heights = r->height + 0.5;
    double ground = 4.8 - heights / 2 / way * (34 + 600 / way);
    double lost = way / 200 - 11.2 - 10 * log10(length / square);
    lost += fmax(fmax(0, ground), screening(r, middle, on_map, way));
    double part = on_map > 10 * heights ? 1 - 10 * heights / on_map : 0;
    for (int period = 0; period < PERIODS; period++) {
        if (!s->drives[period])
            continue;
        double level = s->emission[period] - lost - weather[period] * part;
        r->sum[period] += sign * pow(10, level / 10);
    }
}

/* The same for all pieces between two ends, each halved while it is long for its distance. */
static void pieces(const struct source *s, struct receiver *r, struct point first,
                   struct point second, double sign)
{
    struct point middle = {(first.x + second.x) / 2, (first.y + second.y) / 2};
    double dx = second.x - first.x, dy = second.y - first.y;
    double square_length = dx * dx + dy * dy;
    double square_map = square_on_map(r, middle);
    if (4 * square_length > square_in_space(r, square_map) && square_length > 2.5 * 2.5) {
        pieces(s, r, first, middle, sign);
        pieces(s, r, middle, second, sign);
    } else {
        piece(s, r, middle, sqrt(square_length), square_map, sign);
    }
}

/* Adds (sign 1) or takes away (sign -1) what a source brings to a receiver. */
static void account(const struct source *s, struct receiver *r, double sign)
{
    if (s->is_cut)
        pieces(s, r, s->first, s->second, sign);
    else
        piece(s, r, s->middle, s->length, square_on_map(r, s->middle), sign);
}

static void gather_walls(void)
{
    standing_count = 0;
    for (int slot = 0; slot < WALLS; slot++)
        if (walls[slot].used)
            standing[standing_count++] = walls[slot];
}

static void sum_up(struct receiver *r)
{
    for (int period = 0; period < PERIODS; period++)
        r->sum[period] = 0;
    for (int slot = 0; slot < SOURCES; slot++)
        if (sources[slot].used)
            account(&sources[slot], r, 1);
}

static void place_receiver(struct bits *bits)
{
    struct receiver *r = &receivers[take(bits, 6)];
    r->place = take_point(bits);
    r->height = take(bits, 9) / 100.0;
    r->used = 1;
    gather_walls();
    sum_up(r);
}

static void sum_all_up(void)
{
    gather_walls();
    for (int slot = 0; slot < RECEIVERS; slot++)
        if (receivers[slot].used)
            sum_up(&receivers[slot]);
}

static void place_wall(struct bits *bits)
{
    struct wall *w = &walls[take(bits, 6)];
    w->first = take_point(bits);
    w->second = take_point(bits);
    w->height = take(bits, 11) / 100.0;
    w->used = 1;
    sum_all_up();
}

static void withdraw_wall(struct bits *bits)
{
    walls[take(bits, 6)].used = 0;
    sum_all_up();
}

/* Exchanges what stands in a slot for another source in one round; either may be unused. */
static void exchange(struct source *s, const struct source *comes)
{
    gather_walls();
    for (int slot = 0; slot < RECEIVERS; slot++) {
        if (!receivers[slot].used)
            continue;
        if (s->used)
            account(s, &receivers[slot], -1);
        if (comes->used)
            account(comes, &receivers[slot], 1);
    }
    *s = *comes;
}

static void place_source(struct bits *bits, long kind)
{
    struct source *s = &sources[take(bits, 9)];
    struct source comes = {0};
    read_source(&comes, bits, kind);
    exchange(s, &comes);
}

static void withdraw_source(struct bits *bits)
{
    static const struct source none;
    exchange(&sources[take(bits, 9)], &none);
}

/* What a period brings to the whole day: nothing while it is quiet. */
static double brought(double sum)
{
    return sum < 1 ? 0 : sum;
}

static void print_level(double energy)
{
    if (energy < 1)
        printf(" --.-");
    else
        printf(" %.1f", 10 * log10(energy));
}

static void ask(long number, struct bits *bits)
{
    long slot = take(bits, 6);
    const double *sum = receivers[slot].sum;
    double day = brought(sum[0]), evening = brought(sum[1]), night = brought(sum[2]);
    double day_evening_night = (12 * day + 4 * evening * pow(10, 0.5) + 8 * night * 10) / 24;
    printf("%ld R%02ld", number, slot);
    print_level(day_evening_night);
    print_level(sum[2]);
    putchar('\n');
}

static unsigned char *read_job(size_t *length)
{
    size_t room = 1 << 16, got;
    unsigned char *job = malloc(room);
    *length = 0;
    while (job && (got = fread(job + *length, 1, room - *length, stdin)) > 0) {
        *length += got;
        if (*length == room)
            job = realloc(job, room *= 2);
    }
    return job;
}

int main(void)
{
    static const int lengths[10] = {0, 9, 2, 30, 2, 2, 20, 34, 15, 2};
    size_t length, at = 0;
    unsigned char *job = read_job(&length);
    long number = 0;
    while (job && at < length) {
        struct bits bits = {job + at, 0, 0};
        long kind = take(&bits, 4);
        if (kind < 1 || kind > 9)
            break;
        at += lengths[kind];
        number++;
        if (kind == 1)
            place_receiver(&bits);
        else if (kind == 2)
            receivers[take(&bits, 6)].used = 0;
        else if (kind == 4)
            withdraw_source(&bits);
        else if (kind == 5)
            ask(number, &bits);
        else if (kind == 8)
            place_wall(&bits);
        else if (kind == 9)
            withdraw_wall(&bits);
        else
            place_source(&bits, kind);
    }
    printf("END %ld\n", number);
    free(job);
    return 0;
}
