/* Comparisons of answers with those of the device: each rule on texts that show it; answers that agree, cut at every place, with every
 * byte changed to every other and with every byte left over; very long lines. */
#include "checks.h"
#include "guarded.h"
#include "host_checks.h"

#include <libc.h>

#define EACH(item, table) (uint32_t item = 0; item < sizeof(table) / sizeof *(table); item++)

enum { MOST_SHORT = 512 };

struct text {
    const char *bytes;
    size_t count;
};

/* Any bytes, 0 among them. */
#define TEXT(words) {words, sizeof(words) - 1}
#define NONE TEXT("")

struct finding {
    uint8_t verdict;
    uint64_t offset, length;
};

/* Lines of answers: to no event, and to events of a 24-pin part and of its sister. */
#define HEADER "answer\tint\tlow\thigh"
#define UNREADABLE "refused\t7"
#define QUIET "-\t1\t000000\t000000"
#define ACK "ack\t1\t000000\t000000"
#define NAK "nak\t1\t000000\t000000"
#define QUIET34 "-\t1\t000000000\t000000000"
#define ACK34 "ack\t1\t000000000\t000000000"

/* A device that hears its address, its answers before that to the address, and all of them. */
#define ADDRESSED "device\t2\t000000\nstart\nbyte\t44\n"
#define OPENED_ANSWERS HEADER "\n" QUIET "\n" QUIET "\n"
#define ADDRESSED_ANSWERS OPENED_ANSWERS ACK "\n"

/* The answers are what is before the part that is to be found, that part, and what is after it. */
struct rule {
    const char *says;
    struct text events;
    uint8_t verdict;
    struct text before, part, after;
};

static const struct rule rules[] = {
    {"the device's answers agree", TEXT(ADDRESSED), GHIXRAMEL_AGREES, TEXT(ADDRESSED_ANSWERS), NONE, NONE},
    {"no events expect the header", NONE, GHIXRAMEL_AGREES, TEXT(HEADER "\n"), NONE, NONE},
    {"the sister's answers agree", TEXT("device34\t1\t000000000\nbyte\t42\nstart\nbyte\t42\n"), GHIXRAMEL_AGREES,
     TEXT(HEADER "\n" QUIET34 "\nnak\t1\t000000000\t000000000\n" QUIET34 "\n" ACK34 "\n"), NONE, NONE},
    {"both parts' answers agree", TEXT(ADDRESSED "device34\t2\t000000000\npins\t000001\n" ADDRESSED "pins\t000000001\n"), GHIXRAMEL_AGREES,
     TEXT(ADDRESSED_ANSWERS QUIET34 "\n" UNREADABLE "\n" QUIET "\n" QUIET "\n" ACK "\n" UNREADABLE "\n"), NONE, NONE},

    {"a last line without newline may agree", TEXT(ADDRESSED), GHIXRAMEL_AGREES, TEXT(OPENED_ANSWERS ACK), NONE, NONE},
    {"so may the header", NONE, GHIXRAMEL_AGREES, TEXT(HEADER), NONE, NONE},
    {"a proper beginning departs", TEXT(ADDRESSED), GHIXRAMEL_DEPARTS, TEXT(OPENED_ANSWERS), TEXT("ack\t1\t000000\t00000"), NONE},
    {"a beginning of one byte departs", TEXT(ADDRESSED), GHIXRAMEL_DEPARTS, TEXT(OPENED_ANSWERS), TEXT("a"), NONE},
    {"a beginning with newline departs", TEXT(ADDRESSED), GHIXRAMEL_DEPARTS, TEXT(OPENED_ANSWERS), TEXT("ack"), TEXT("\n")},
    {"a beginning of the header departs", NONE, GHIXRAMEL_DEPARTS, NONE, TEXT("answer\tint\tlow\thig"), NONE},
    {"a last event without newline counts", TEXT("device\t2\t000000\nstart\nbyte\t44"), GHIXRAMEL_AGREES, TEXT(ADDRESSED_ANSWERS), NONE,
     NONE},

    {"another line departs", TEXT(ADDRESSED), GHIXRAMEL_DEPARTS, TEXT(OPENED_ANSWERS), TEXT(NAK), TEXT("\n")},
    {"another last line departs", TEXT(ADDRESSED), GHIXRAMEL_DEPARTS, TEXT(OPENED_ANSWERS), TEXT(NAK), NONE},
    {"a longer line departs", TEXT(ADDRESSED), GHIXRAMEL_DEPARTS, TEXT(OPENED_ANSWERS), TEXT(ACK "0"), TEXT("\n")},
    {"line one is the header", TEXT(ADDRESSED), GHIXRAMEL_DEPARTS, NONE, TEXT(QUIET), TEXT("\n" QUIET "\n" ACK "\n")},
    {"another header departs", NONE, GHIXRAMEL_DEPARTS, NONE, TEXT("answer\tint\thigh\tlow"), TEXT("\n")},
    {"an empty line departs", TEXT(ADDRESSED), GHIXRAMEL_DEPARTS, TEXT(OPENED_ANSWERS), NONE, TEXT("\n" ACK "\n")},
    {"an empty first line departs", TEXT(ADDRESSED), GHIXRAMEL_DEPARTS, NONE, NONE, TEXT("\n" ADDRESSED_ANSWERS)},
    {"digits of the other part depart", TEXT("device34\t2\t000000000\n"), GHIXRAMEL_DEPARTS, TEXT(HEADER "\n"), TEXT(QUIET), TEXT("\n")},
    {"NUL departs", TEXT(ADDRESSED), GHIXRAMEL_DEPARTS, TEXT(OPENED_ANSWERS), TEXT(ACK "\0"), TEXT("\n")},
    {"a return departs", TEXT(ADDRESSED), GHIXRAMEL_DEPARTS, TEXT(OPENED_ANSWERS), TEXT(ACK "\r"), TEXT("\n")},
    {"a return for the last newline departs", TEXT(ADDRESSED), GHIXRAMEL_DEPARTS, TEXT(OPENED_ANSWERS), TEXT(ACK "\r"), NONE},
    {"of returns the header's departs", TEXT("start\n"), GHIXRAMEL_DEPARTS, NONE, TEXT(HEADER "\r"), TEXT("\n" UNREADABLE "\r\n")},

    {"the first that differs decides", TEXT(ADDRESSED), GHIXRAMEL_DEPARTS, TEXT(HEADER "\n"), TEXT(NAK), TEXT("\n" NAK "\n" NAK "\n")},
    {".. before lines that are missing", TEXT(ADDRESSED), GHIXRAMEL_DEPARTS, TEXT(HEADER "\n"), TEXT(NAK), TEXT("\n")},
    {".. before lines left over", TEXT(ADDRESSED), GHIXRAMEL_DEPARTS, TEXT(OPENED_ANSWERS), TEXT(NAK), TEXT("\n" QUIET "\n" QUIET "\n")},

    {"empty answers end early", TEXT(ADDRESSED), GHIXRAMEL_ENDS_EARLY, NONE, NONE, NONE},
    {"empty answers to no events end early", NONE, GHIXRAMEL_ENDS_EARLY, NONE, NONE, NONE},
    {"the header alone ends early", TEXT(ADDRESSED), GHIXRAMEL_ENDS_EARLY, TEXT(HEADER "\n"), NONE, NONE},
    {"a missing line ends early", TEXT(ADDRESSED), GHIXRAMEL_ENDS_EARLY, TEXT(OPENED_ANSWERS), NONE, NONE},
    {"so it does after a line without newline", TEXT(ADDRESSED), GHIXRAMEL_ENDS_EARLY, TEXT(HEADER "\n" QUIET "\n" QUIET), NONE, NONE},

    {"a further line is left over", TEXT(ADDRESSED), GHIXRAMEL_LEFT_OVER, TEXT(ADDRESSED_ANSWERS), TEXT(QUIET), TEXT("\n")},
    {"so is one without newline", TEXT(ADDRESSED), GHIXRAMEL_LEFT_OVER, TEXT(ADDRESSED_ANSWERS), TEXT(QUIET), NONE},
    {"the first left over is found", TEXT(ADDRESSED), GHIXRAMEL_LEFT_OVER, TEXT(ADDRESSED_ANSWERS), TEXT(NAK), TEXT("\n" QUIET "\n")},
    {"an empty line is left over", TEXT(ADDRESSED), GHIXRAMEL_LEFT_OVER, TEXT(ADDRESSED_ANSWERS), NONE, TEXT("\n")},
    {"the first of empty lines is left over", TEXT(ADDRESSED), GHIXRAMEL_LEFT_OVER, TEXT(ADDRESSED_ANSWERS), NONE, TEXT("\n\n" QUIET "\n")},
    {"no events leave an empty line over", NONE, GHIXRAMEL_LEFT_OVER, TEXT(HEADER "\n"), NONE, TEXT("\n")},
    {"no events leave all answers over", NONE, GHIXRAMEL_LEFT_OVER, TEXT(HEADER "\n"), TEXT(QUIET), TEXT("\n" QUIET "\n" ACK "\n")},

    {"an event before a device is unreadable", TEXT("start\n"), GHIXRAMEL_AGREES, TEXT(HEADER "\n" UNREADABLE "\n"), NONE, NONE},
    {"so is one with a return", TEXT(ADDRESSED "start\r\n"), GHIXRAMEL_AGREES, TEXT(ADDRESSED_ANSWERS UNREADABLE "\n"), NONE, NONE},
    {"so is one with NUL", TEXT(ADDRESSED "start\0\n"), GHIXRAMEL_AGREES, TEXT(ADDRESSED_ANSWERS UNREADABLE "\n"), NONE, NONE},
    {"so is an empty one", TEXT("\n\n"), GHIXRAMEL_AGREES, TEXT(HEADER "\n" UNREADABLE "\n" UNREADABLE "\n"), NONE, NONE},
    {"another answer to it departs", TEXT("\n"), GHIXRAMEL_DEPARTS, TEXT(HEADER "\n"), TEXT("refused\t2"), TEXT("\n")},
    {"so does an empty line for it", TEXT("no event\nno event\n"), GHIXRAMEL_DEPARTS, TEXT(HEADER "\n"), NONE, TEXT("\n" UNREADABLE "\n")},
    {"an answer that is missing for it ends early", TEXT("\n"), GHIXRAMEL_ENDS_EARLY, TEXT(HEADER "\n"), NONE, NONE},
};

/* Events, none of them empty, and their answers. */
struct recording {
    const char *of;
    struct text events, answers;
};

static const struct recording recordings[] = {
    {"no events", NONE, TEXT(HEADER "\n")},
    {"24 pins: pin 0 is unmasked and rises; a fetch without its bit",
     TEXT("device\t2\t000000\nstart\nbyte\t44\nbyte\t54\nbyte\tfe\npins\t000001\nfetch\n"),
     TEXT(HEADER "\n" QUIET "\n" QUIET "\n" ACK "\n" ACK "\n" ACK "\n-\t0\t000000\t000000\n" UNREADABLE "\n")},
    {"34 pins: pin 32 is driven, and its register fetched",
     TEXT("device34\t1\t200000000\nstart\nbyte\t42\nbyte\t93\nbyte\tfe\nstart\nbyte\t42\nbyte\t13\nstart\nbyte\t43\nfetch\t0\n"),
     TEXT(HEADER "\n" QUIET34 "\n" QUIET34 "\n" ACK34 "\n" ACK34 "\nack\t1\t000000000\t100000000\n-\t1\t000000000\t100000000\n"
          "ack\t1\t000000000\t100000000\nack\t1\t000000000\t100000000\n-\t1\t000000000\t100000000\nack\t1\t000000000\t100000000\n"
          "02\t1\t000000000\t100000000\n")},
    {"both parts, each with levels of the other's digits",
     TEXT("pins\t000001\ndevice\t0\t000000\npins\t000000001\ndevice34\t3\t000000000\npins\t000001\nstop\ndevice\t1\tffffff\nfetch\t1\n"),
     TEXT(HEADER "\n" UNREADABLE "\n" QUIET "\n" UNREADABLE "\n" QUIET34 "\n" UNREADABLE "\n" QUIET34 "\n" QUIET "\n"
          "ff\t1\t000000\t000000\n")},
};

static void want_finding(struct text events, struct text answers, struct finding wanted)
{
    uint8_t verdict[1] = {0};
    uint64_t part[2] = {0};
    want("refusal", GHIXRAMEL_DONE,
         guarded_compare((const uint8_t *)events.bytes, events.count, (const uint8_t *)answers.bytes, answers.count, verdict, part));
    want("verdict", wanted.verdict, verdict[0]);
    want("offset of the part", wanted.offset, part[0]);
    want("length of the part", wanted.length, part[1]);
}

static char *put_text(char *to, struct text text)
{
    return (char *)memcpy(to, text.bytes, text.count) + text.count;
}

static void want_rule(const struct rule *rule)
{
    char answers[MOST_SHORT];
    char *end = put_text(put_text(put_text(answers, rule->before), rule->part), rule->after);
    about(rule->says, 0);
    want_finding(rule->events, (struct text){answers, (size_t)(end - answers)},
                 (struct finding){rule->verdict, rule->before.count, rule->part.count});
}

/* Of the line that begins there: its newline, or the end of the text. */
static size_t line_end(struct text text, size_t begin)
{
    while (begin < text.count && text.bytes[begin] != '\n')
        begin++;
    return begin;
}

static struct finding line_found(uint8_t verdict, struct text answers, size_t begin)
{
    return (struct finding){verdict, begin, line_end(answers, begin) - begin};
}

/* What a comparison finds in these answers where those are expected. */
static struct finding found_plainly(struct text expected, struct text answers)
{
    size_t wanted = 0, got = 0;
    while (wanted < expected.count && got < answers.count) {
        size_t wanted_end = line_end(expected, wanted), got_end = line_end(answers, got);
        if (got_end - got != wanted_end - wanted || memcmp(expected.bytes + wanted, answers.bytes + got, got_end - got) != 0)
            return line_found(GHIXRAMEL_DEPARTS, answers, got);
        wanted = wanted_end + 1;
        got = got_end + 1;
    }
    if (got < answers.count)
        return line_found(GHIXRAMEL_LEFT_OVER, answers, got);
    return (struct finding){wanted < expected.count ? GHIXRAMEL_ENDS_EARLY : GHIXRAMEL_AGREES, answers.count, 0};
}

static void cut_answers(const struct recording *recording)
{
    for (size_t count = 0; count <= recording->answers.count; count++) {
        struct text cut = {recording->answers.bytes, count};
        about(recording->of, count);
        want_finding(recording->events, cut, found_plainly(recording->answers, cut));
    }
}

/* After each event, with its newline and without: the answers to those that are gone are left over. */
static void cut_events(const struct recording *recording)
{
    struct text events = {recording->events.bytes, 0}, expected = {recording->answers.bytes, line_end(recording->answers, 0) + 1};
    while (events.count < recording->events.count) {
        about(recording->of, events.count);
        want_finding(events, recording->answers, found_plainly(expected, recording->answers));
        events.count = line_end(recording->events, events.count);
        expected.count = line_end(recording->answers, expected.count) + 1;
        want_finding(events, recording->answers, found_plainly(expected, recording->answers));
        events.count++;
    }
}

/* The line of a byte that is another departs; a newline belongs to the line before it. */
static void change_bytes(const struct recording *recording)
{
    char bytes[MOST_SHORT];
    struct text changed = {bytes, recording->answers.count};
    size_t begin = 0;
    put_text(bytes, recording->answers);
    for (size_t place = 0; place < changed.count; place++) {
        char kept = bytes[place];
        about(recording->of, place);
        for (uint32_t other = 1; other <= UINT8_MAX; other += ONE_IN) {
            bytes[place] = (char)((uint8_t)kept ^ other);
            want_finding(recording->events, changed, line_found(GHIXRAMEL_DEPARTS, changed, begin));
        }
        bytes[place] = kept;
        begin = kept == '\n' ? place + 1 : begin;
    }
}

static void leave_bytes_over(const struct recording *recording)
{
    char bytes[MOST_SHORT];
    struct text longer = {bytes, recording->answers.count + 1};
    char *last = put_text(bytes, recording->answers);
    for (uint32_t byte = 0; byte <= UINT8_MAX; byte++) {
        *last = (char)byte;
        about(recording->of, byte);
        want_finding(recording->events, longer, line_found(GHIXRAMEL_LEFT_OVER, longer, recording->answers.count));
    }
}

/* Texts as long as may be lent here, of one line or with one at the end. */
static void long_lines(void)
{
    static char bytes[MOST_TEXT_BYTES];
    struct text line = {bytes, sizeof bytes}, header = TEXT(HEADER "\n"), unreadable = TEXT(HEADER "\n" UNREADABLE "\n"), none = NONE;
    memset(bytes, 'x', sizeof bytes);
    about("a long event", 0);
    want_finding(line, unreadable, (struct finding){GHIXRAMEL_AGREES, unreadable.count, 0});
    about("a long line of answers", 0);
    want_finding(line, line, (struct finding){GHIXRAMEL_DEPARTS, 0, line.count});
    put_text(bytes, header);
    about("a long line left over", 0);
    want_finding(none, line, (struct finding){GHIXRAMEL_LEFT_OVER, header.count, line.count - header.count});
}

void check_compares(void)
{
    for EACH (i, rules)
        want_rule(&rules[i]);
    for EACH (i, recordings) {
        cut_answers(&recordings[i]);
        cut_events(&recordings[i]);
        change_bytes(&recordings[i]);
        leave_bytes_over(&recordings[i]);
    }
    long_lines();
}
