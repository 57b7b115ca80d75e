/* Keys whose values name them, so that an answer of another call is seen. Included after server.h. */
#ifndef SECRETS_H
#define SECRETS_H

enum { NAMES = 50 };

static char names[NAMES][32], secrets[NAMES][32];

static inline struct bpfmap_span name_of(unsigned number)
{
    return bpfmap_text(names[number % NAMES]);
}

static inline void check_secret(unsigned number, const struct bpfmap_reply *reply)
{
    const char *wanted = secrets[number % NAMES];
    CHECK(reply->kind == BPFMAP_VALUE && strcmp((const char *)reply->value, wanted) == 0, "'%s' came for '%s'",
          (const char *)reply->value, wanted);
}

static inline void put_secrets(struct bpfmap_client *client)
{
    for (unsigned i = 0; i < NAMES; i++) {
        sprintf(names[i], "name %u", i);
        sprintf(secrets[i], "secret of name %u", i);
        CHECK_STATUS(client, BPFMAP_OK, bpfmap_put(client, name_of(i), bpfmap_text(secrets[i]), NULL));
    }
}

#endif
