/* Plays a script of a world as `ba replay` does and prints the same lines, as a plain interpreter in C does: objects in arrays,
   messages as structs in a bag, no journals, no envelopes, and nothing proved. It knows the forms that make_world.py uses, with
   every act and both verdicts, in ParticipantCompletion and atomic scopes, and refuses a script with any other line by a message
   and the status 1. Reads the standard input; where an event names what isn't there, the status is 3. */
#include <stdint.h>
#include <stdio.h>
#include <stdlib.h>
#include <string.h>

enum { MOST_LINES = 100000, MOST_BYTES = 256, MOST_NODES = 64, MOST_ENDS = 256 };

/* The notices that a coordinator's end says, and then those of a participant. */
enum notice {
    NOTHING, SAY_CLOSE, SAY_CANCEL, SAY_COMPENSATE, SAY_FAILED, SAY_EXITED, SAY_NOT_COMPLETED,
    SAY_COMPLETED, SAY_CLOSED, SAY_CANCELED, SAY_COMPENSATED, SAY_FAIL, SAY_EXIT, SAY_CANNOT_COMPLETE,
    OF_ENDS = SAY_COMPLETED - SAY_CLOSE, OF_PARTS = SAY_CANNOT_COMPLETE - SAY_COMPLETED + 1
};

static const char *const notice_words[] = {
    "", "Close", "Cancel", "Compensate", "Failed", "Exited", "NotCompleted",
    "Completed", "Closed", "Canceled", "Compensated", "Fail", "Exit", "CannotComplete"
};

/* What the work of a participant comes to, in the order of its notices. */
static const char *const act_words[] = {"completed", "closed", "canceled", "compensated", "fail", "exit", "cannotcomplete"};

/* The states of both sides, after what a cell may say besides: no row, and a row that keeps the state. */
enum state {
    NONE, STAY, REGISTERING, ACTIVE, CANCELING, COMPLETED, CLOSING, COMPENSATING, FAILING_ACTIVE, FAILING_CANCELING,
    FAILING_COMPENSATING, NOT_COMPLETING, EXITING, HAS_FAILED, HAS_EXITED, NOT_COMPLETED, CANCELED, CLOSED, COMPENSATED, IS_REFUSED,
    STATES
};

static const char *const state_words[STATES] = {
    "", "", "Registering", "Active", "Canceling", "Completed", "Closing", "Compensating", "Failing-Active", "Failing-Canceling",
    "Failing-Compensating", "NotCompleting", "Exiting", "Ended/Failed", "Ended/Exited", "Ended/NotCompleted", "Ended/Canceled",
    "Ended/Closed", "Ended/Compensated", "Ended/Refused"
};

/* What an end comes to by each notice of its participant, while it hasn't ended. */
static const unsigned char end_rows[STATES][OF_PARTS] = {
    /*                        Completed  Closed  Canceled  Compensated  Fail                  Exit     CannotComplete */
    [ACTIVE]               = {COMPLETED, NONE,   NONE,     NONE,        FAILING_ACTIVE,       EXITING, NOT_COMPLETING},
    [CANCELING]            = {COMPLETED, NONE,   CANCELED, NONE,        FAILING_CANCELING,    EXITING, NOT_COMPLETING},
    [COMPLETED]            = {STAY,      NONE,   NONE,     NONE,        NONE,                 NONE,    NONE},
    [CLOSING]              = {STAY,      CLOSED, NONE,     NONE,        NONE,                 NONE,    NONE},
    [COMPENSATING]         = {STAY,      NONE,   NONE,     COMPENSATED, FAILING_COMPENSATING, NONE,    NONE},
    [FAILING_ACTIVE]       = {NONE,      NONE,   NONE,     NONE,        STAY,                 NONE,    NONE},
    [FAILING_CANCELING]    = {NONE,      NONE,   NONE,     NONE,        STAY,                 NONE,    NONE},
    [FAILING_COMPENSATING] = {STAY,      NONE,   NONE,     NONE,        STAY,                 NONE,    NONE},
    [NOT_COMPLETING]       = {NONE,      NONE,   NONE,     NONE,        NONE,                 NONE,    STAY},
    [EXITING]              = {NONE,      NONE,   NONE,     NONE,        NONE,                 STAY,    NONE},
};

/* What a participant comes to by each notice of its end, from where it is enrolled until it has ended. */
static const unsigned char part_rows[STATES][OF_ENDS] = {
    /*                        Close    Cancel     Compensate    Failed      Exited      NotCompleted */
    [ACTIVE]               = {NONE,    CANCELING, NONE,         NONE,       NONE,       NONE},
    [CANCELING]            = {NONE,    STAY,      NONE,         NONE,       NONE,       NONE},
    [COMPLETED]            = {CLOSING, STAY,      COMPENSATING, NONE,       NONE,       NONE},
    [CLOSING]              = {STAY,    STAY,      NONE,         NONE,       NONE,       NONE},
    [COMPENSATING]         = {NONE,    STAY,      STAY,         NONE,       NONE,       NONE},
    [FAILING_ACTIVE]       = {NONE,    STAY,      NONE,         HAS_FAILED, NONE,       NONE},
    [FAILING_CANCELING]    = {NONE,    STAY,      NONE,         HAS_FAILED, NONE,       NONE},
    [FAILING_COMPENSATING] = {NONE,    STAY,      STAY,         HAS_FAILED, NONE,       NONE},
    [NOT_COMPLETING]       = {NONE,    STAY,      NONE,         NONE,       NONE,       NOT_COMPLETED},
    [EXITING]              = {NONE,    STAY,      NONE,         NONE,       HAS_EXITED, NONE},
};

enum verdict { UNDECIDED, CLOSE, UNDO };

static const char *const verdict_words[] = {"none", "close", "undo"};

/* What an end comes to by a verdict; at the other states it stays. */
static const unsigned char chosen[][STATES] = {
    [CLOSE] = {[COMPLETED] = CLOSING},
    [UNDO] = {[ACTIVE] = CANCELING, [COMPLETED] = COMPENSATING},
};

/* Whether an end is ready for the verdict to close. */
static const unsigned char is_ready[STATES] = {[COMPLETED] = 1, [EXITING] = 1, [HAS_EXITED] = 1};

/* What a tick of an end says, and the state that it leads to where it leads on. */
static const unsigned char end_says[STATES] = {
    [CANCELING] = SAY_CANCEL, [CLOSING] = SAY_CLOSE, [COMPENSATING] = SAY_COMPENSATE, [FAILING_ACTIVE] = SAY_FAILED,
    [FAILING_CANCELING] = SAY_FAILED, [FAILING_COMPENSATING] = SAY_FAILED, [NOT_COMPLETING] = SAY_NOT_COMPLETED,
    [EXITING] = SAY_EXITED, [HAS_FAILED] = SAY_FAILED, [HAS_EXITED] = SAY_EXITED, [NOT_COMPLETED] = SAY_NOT_COMPLETED,
};
static const unsigned char end_after[STATES] = {
    [FAILING_ACTIVE] = HAS_FAILED, [FAILING_CANCELING] = HAS_FAILED, [FAILING_COMPENSATING] = HAS_FAILED,
    [NOT_COMPLETING] = NOT_COMPLETED, [EXITING] = HAS_EXITED,
};

/* What a tick of a participant says. */
static const unsigned char part_says[STATES] = {
    [COMPLETED] = SAY_COMPLETED, [FAILING_ACTIVE] = SAY_FAIL, [FAILING_CANCELING] = SAY_FAIL, [FAILING_COMPENSATING] = SAY_FAIL,
    [NOT_COMPLETING] = SAY_CANNOT_COMPLETE, [EXITING] = SAY_EXIT, [CANCELED] = SAY_CANCELED, [CLOSED] = SAY_CLOSED,
    [COMPENSATED] = SAY_COMPENSATED,
};

/* What a participant comes to when its work comes to this. */
static const unsigned char acted[STATES][OF_PARTS] = {
    /*                Completed  Closed  Canceled  Compensated  Fail                  Exit     CannotComplete */
    [ACTIVE]       = {COMPLETED, NONE,   NONE,     NONE,        FAILING_ACTIVE,       EXITING, NOT_COMPLETING},
    [CANCELING]    = {NONE,      NONE,   CANCELED, NONE,        FAILING_CANCELING,    NONE,    NONE},
    [CLOSING]      = {NONE,      CLOSED, NONE,     NONE,        NONE,                 NONE,    NONE},
    [COMPENSATING] = {NONE,      NONE,   NONE,     COMPENSATED, FAILING_COMPENSATING, NONE,    NONE},
};

struct name { uint32_t node; uint64_t counter; };

/* Of a scope `verdict` and its ends; of an end also its scope, and its participant as `other`; of a participant its scope, and the
   end that it was told of as `other`. */
struct object {
    enum { SCOPE, END, PART } kind;
    unsigned char state, verdict;
    struct name scope, other;
    uint64_t *ends;
    size_t count, room;
};

/* The object with the counter K is objects[K - 1]. The slots hold counters of ends, or 0, by their participants. */
struct node { struct object *objects; uint64_t *slots; size_t last, room, ends, slot_room; };

struct message {
    enum { REGISTER, ENROLMENT, REFUSAL, FAULT, NOTICE } kind;
    enum notice notice;
    struct name from, to;
};

static const char *const message_words[] = {"Register", "RegisterResponse", "fault CannotRegisterParticipant", "fault InvalidState"};

struct event {
    enum { CREATE, JOIN, TICK, DELIVER, ACT, DECIDE } kind;
    unsigned char word;
    unsigned line;
    uint32_t node;
    struct name name;
    uint64_t number;
};

struct world { struct node nodes[MOST_NODES + 1]; uint32_t count; struct message *bag; size_t sent, room; };

static void stop(int status, const char *what, unsigned line) {
    if (line) fprintf(stderr, "line %u ", line);
    fprintf(stderr, "%s\n", what);
    exit(status);
}

static void *claim(void *old, size_t count, size_t size) {
    void *new = realloc(old, count * size);
    if (!new) stop(6, "memory", 0);
    return new;
}

/* The array with room for one more than `count`. */
static void *with_room(void *array, size_t count, size_t *room, size_t size) {
    if (count < *room) return array;
    *room = *room ? *room * 2 : 16;
    return claim(array, *room, size);
}

/* What is printed. */

static char held[1 << 16];
static size_t held_size;

static void flush(void) {
    if (fwrite(held, 1, held_size, stdout) != held_size || fflush(stdout)) exit(5);
    held_size = 0;
}

static void put(const char *text) {
    size_t size = strlen(text);
    if (held_size + size > sizeof held) flush();
    memcpy(held + held_size, text, size);
    held_size += size;
}

static void put_number(uint64_t number) {
    char digits[21], *at = digits + 20;
    *at = 0;
    do *--at = '0' + number % 10; while (number /= 10);
    put(at);
}

static void put_name(struct name name) {
    put_number(name.node);
    put(".");
    put_number(name.counter);
}

static void put_made(const char *text, struct name name) {
    put(text);
    put_name(name);
    put("\n");
}

/* Nodes and their objects. */

static struct object *object_of(struct world *world, struct name name, int kind) {
    struct node *node = &world->nodes[name.node];
    if (!name.counter || name.counter > node->last) return 0;
    struct object *object = &node->objects[name.counter - 1];
    return object->kind == (unsigned)kind ? object : 0;
}

static struct name added(struct world *world, uint32_t number, struct object object) {
    struct node *node = &world->nodes[number];
    node->objects = with_room(node->objects, node->last, &node->room, sizeof object);
    node->objects[node->last] = object;
    return (struct name){number, ++node->last};
}

/* The slot of the end with this participant in this scope, or the free one that it would take. */
static uint64_t *slot_of(struct node *node, struct name scope, struct name part) {
    uint64_t at = (part.counter * 64 + part.node) * 0x9e3779b97f4a7c15;
    for (at >>= 32;; ++at) {
        uint64_t *slot = &node->slots[at & (node->slot_room - 1)];
        if (!*slot) return slot;
        struct object *end = &node->objects[*slot - 1];
        if (end->other.counter == part.counter && end->other.node == part.node && end->scope.counter == scope.counter) return slot;
    }
}

static void grow_slots(struct node *node) {
    uint64_t *old = node->slots;
    size_t count = node->slot_room;
    if (node->ends * 2 < count) return;
    node->slot_room = count ? count * 2 : 64;
    node->slots = memset(claim(0, node->slot_room, sizeof *old), 0, node->slot_room * sizeof *old);
    for (size_t n = 0; n < count; ++n) {
        if (!old[n]) continue;
        struct object *end = &node->objects[old[n] - 1];
        *slot_of(node, end->scope, end->other) = old[n];
    }
    free(old);
}

static void tell(struct object *end, enum verdict verdict) {
    end->verdict = verdict;
    if (chosen[verdict][end->state]) end->state = chosen[verdict][end->state];
}

/* Events. Each prints its line after the number. */

static void send(struct world *world, const char *text, struct message message) {
    world->bag = with_room(world->bag, world->sent, &world->room, sizeof message);
    world->bag[world->sent] = message;
    put(text);
    put_number(++world->sent);
    put(" ");
    put(message.kind == NOTICE ? notice_words[message.notice] : message_words[message.kind]);
    put("\n");
}

static void reply(struct world *world, const struct message *to, int kind, struct name from) {
    send(world, "reply ", (struct message){kind, NOTHING, from, to->from});
}

static void tick(struct world *world, struct name name) {
    struct object *end = object_of(world, name, END), *part = object_of(world, name, PART);
    enum notice notice = end ? end_says[end->state] : part ? part_says[part->state] : NOTHING;
    if (end && end_after[end->state]) end->state = end_after[end->state];
    if (part && part->state == REGISTERING) send(world, "sent ", (struct message){REGISTER, NOTHING, name, part->scope});
    else if (notice == NOTHING) put("quiet\n");
    else send(world, "sent ", (struct message){NOTICE, notice, name, (end ? end : part)->other});
}

static void enrol(struct world *world, const struct message *message) {
    struct node *node = &world->nodes[message->to.node];
    struct object *scope = object_of(world, message->to, SCOPE);
    grow_slots(node);
    uint64_t *slot = slot_of(node, message->to, message->from);
    if (!*slot && (scope->verdict || scope->count == MOST_ENDS)) {
        reply(world, message, REFUSAL, message->to);
        return;
    }
    if (!*slot) {
        struct object end = {.kind = END, .state = ACTIVE, .scope = message->to, .other = message->from};
        *slot = node->last + 1;
        ++node->ends;
        scope->ends = with_room(scope->ends, scope->count, &scope->room, sizeof *slot);
        scope->ends[scope->count++] = *slot;
        added(world, message->to.node, end);
    }
    reply(world, message, ENROLMENT, (struct name){message->to.node, *slot});
}

static void hear(struct world *world, const struct message *message) {
    struct object *end = object_of(world, message->to, END), *object = end ? end : object_of(world, message->to, PART);
    int to = STAY;
    if (object->state > REGISTERING && object->state < HAS_FAILED)
        to = end ? end_rows[end->state][message->notice - SAY_COMPLETED] : part_rows[object->state][message->notice - SAY_CLOSE];
    if (to == NONE) {
        reply(world, message, FAULT, message->to);
        return;
    }
    if (to != STAY) object->state = to;
    if (to == COMPLETED && end && end->verdict) tell(end, end->verdict);
    put("ok\n");
}

static void deliver(struct world *world, struct message message) {
    struct object *part = object_of(world, message.to, PART);
    if (message.kind == REGISTER) enrol(world, &message);
    else if (message.kind == NOTICE) hear(world, &message);
    else {
        if (message.kind == ENROLMENT && part->state == REGISTERING) part->state = ACTIVE, part->other = message.from;
        if (message.kind == REFUSAL && part->state == REGISTERING) part->state = IS_REFUSED;
        put("ok\n");
    }
}

static void act(struct world *world, struct name name, int word) {
    struct object *part = object_of(world, name, PART);
    int to = part ? acted[part->state][word] : NONE;
    if (!part) put_made("refused 42 ", name);
    else if (to == NONE) put_made("refused 43 ", name);
    else part->state = to, put("ok\n");
}

static void decide(struct world *world, struct name name, enum verdict verdict) {
    struct object *scope = object_of(world, name, SCOPE), *objects = world->nodes[name.node].objects;
    if (!scope || scope->verdict) {
        put_made(scope ? "refused 34 " : "refused 41 ", name);
        return;
    }
    for (size_t n = 0; n < scope->count && verdict == CLOSE; ++n) {
        if (is_ready[objects[scope->ends[n] - 1].state]) continue;
        put_made("refused 35 ", (struct name){name.node, scope->ends[n]});
        return;
    }
    scope->verdict = verdict;
    for (size_t n = 0; n < scope->count; ++n) tell(&objects[scope->ends[n] - 1], verdict);
    put("ok\n");
}

/* Why the event can't be, or nothing. */
static const char *missing(struct world *world, const struct event *event) {
    uint32_t count = world->count;
    if (event->kind == DELIVER) return event->number && event->number <= world->sent ? 0 : "no such message";
    int is_there = event->kind == CREATE || (event->name.node && event->name.node <= count);
    if (event->kind == CREATE || event->kind == JOIN) is_there = is_there && event->node && event->node <= count;
    if (event->kind == JOIN) is_there = is_there && object_of(world, event->name, SCOPE);
    return is_there ? 0 : "no such name";
}

static void play(struct world *world, const struct event *event) {
    const char *why = missing(world, event);
    if (why) {
        flush();
        stop(3, why, event->line);
    }
    put_number(event->line);
    put(" ");
    switch (event->kind) {
    case CREATE: put_made("ok ", added(world, event->node, (struct object){.kind = SCOPE})); break;
    case JOIN: put_made("ok ", added(world, event->node, (struct object){.kind = PART, .state = REGISTERING, .scope = event->name})); break;
    case TICK: tick(world, event->name); break;
    case DELIVER: deliver(world, world->bag[event->number - 1]); break;
    case ACT: act(world, event->name, event->word); break;
    case DECIDE: decide(world, event->name, event->word); break;
    }
}

static void show(struct name name, const struct object *object) {
    put_name(name);
    put(object->kind == SCOPE ? " scope atomic " : object->kind == END ? " end pc " : " part pc ");
    put(state_words[object->state]);
    if (object->kind == END) put(" ");
    if (object->kind != PART) put(verdict_words[object->verdict]);
    put("\n");
}

static void show_all(const struct world *world) {
    for (uint32_t node = 1; node <= world->count; ++node)
        for (size_t n = 0; n < world->nodes[node].last; ++n) show((struct name){node, n + 1}, &world->nodes[node].objects[n]);
    put("bag=");
    put_number(world->sent);
    put("\n");
}

/* Scripts. */

struct text { const char *at, *end; };

static int is_word(struct text *text, const char *word) {
    size_t size = strlen(word);
    if ((size_t)(text->end - text->at) < size || memcmp(text->at, word, size)) return 0;
    text->at += size;
    return 1;
}

static int is_number(struct text *text, uint64_t most, uint64_t *number) {
    const char *from = text->at;
    uint64_t tens = most / 10, ones = most % 10;
    *number = 0;
    for (; text->at < text->end && *text->at >= '0' && *text->at <= '9'; ++text->at) {
        unsigned digit = *text->at - '0';
        if (*number > tens || (*number == tens && digit > ones)) return 0;
        *number = *number * 10 + digit;
    }
    return text->at > from && (*from != '0' || text->at == from + 1);
}

static int is_node(struct text *text, uint32_t *node) {
    uint64_t number;
    if (!is_number(text, UINT32_MAX, &number)) return 0;
    *node = number;
    return 1;
}

static int is_name(struct text *text, struct event *event) {
    if (!is_node(text, &event->name.node) || !is_word(text, ".")) return 0;
    return is_number(text, UINT64_MAX, &event->name.counter);
}

/* A name and, after it, one of these words, which the line ends with. */
static int is_told(struct text *text, struct event *event, const char *const *words, int first, int count) {
    if (!is_name(text, event) || !is_word(text, " ")) return 0;
    for (int n = first; n < count; ++n) {
        if (strlen(words[n]) != (size_t)(text->end - text->at) || !is_word(text, words[n])) continue;
        event->word = n;
        return 1;
    }
    return 0;
}

static int is_event(struct text *text, struct event *event) {
    if (is_word(text, "deliver ")) return event->kind = DELIVER, is_number(text, UINT64_MAX, &event->number);
    if (is_word(text, "tick ")) return event->kind = TICK, is_name(text, event);
    if (is_word(text, "act ")) return event->kind = ACT, is_told(text, event, act_words, 0, OF_PARTS);
    if (is_word(text, "decide ")) return event->kind = DECIDE, is_told(text, event, verdict_words, CLOSE, UNDO + 1);
    if (is_word(text, "create ")) return event->kind = CREATE, is_node(text, &event->node) && is_word(text, " atomic");
    if (is_word(text, "join ")) return event->kind = JOIN, is_node(text, &event->node) && is_word(text, " pc ") && is_name(text, event);
    return 0;
}

/* Its events, of which there are so many. */
static struct event *events_of(struct text script, uint32_t *nodes, size_t *count) {
    struct event *events = 0;
    size_t room = 0;
    for (unsigned number = 1; script.at < script.end; ++number) {
        const char *feed = memchr(script.at, '\n', script.end - script.at);
        struct text line = {script.at, feed ? feed : script.end};
        script.at = feed ? feed + 1 : script.end;
        if (number > MOST_LINES || line.end - line.at > MOST_BYTES) stop(1, "is past the limits", number);
        if (line.at == line.end || *line.at == '#') continue;
        struct event event = {.line = number};
        int is_one = *nodes != 0, is_good = is_one ? is_event(&line, &event) : is_word(&line, "nodes ") && is_node(&line, nodes);
        if (!is_good || !*nodes || *nodes > MOST_NODES || line.at != line.end) stop(1, "is of no form that make_world.py uses", number);
        if (!is_one) continue;
        events = with_room(events, *count, &room, sizeof event);
        events[(*count)++] = event;
    }
    return events;
}

static struct text input(void) {
    char *bytes = 0;
    size_t size = 0, room = 0, more;
    do {
        if (size == room) bytes = claim(bytes, room = room ? room * 2 : 1 << 16, 1);
        more = fread(bytes + size, 1, room - size, stdin);
        size += more;
    } while (more);
    if (ferror(stdin)) stop(4, "read", 0);
    return (struct text){bytes, bytes + size};
}

int main(void) {
    static struct world world;
    static struct text script;
    static struct event *events;
    size_t count = 0;
    script = input();
    events = events_of(script, &world.count, &count);
    if (!world.count) stop(1, "the script is of no world", 0);
    for (size_t n = 0; n < count; ++n) play(&world, &events[n]);
    show_all(&world);
    flush();
    return 0;
}
