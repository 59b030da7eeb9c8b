#include <hiredis/hiredis.h>
#include <stdio.h>
#include <stdlib.h>
#include <string.h>

static void show(redisContext *client)
{
    redisReply *reply = NULL;
    if (redisGetReply(client, (void **)&reply) != REDIS_OK)
        printf("context error: %s\n", client->errstr);
    else if (reply->type == REDIS_REPLY_ERROR)
        printf("reply of type error: %s\n", reply->str);
    else
        printf("gave %s %lld\n", reply->str ? reply->str : "", reply->integer);
    freeReplyObject(reply);
}

int main(int count, char **words)
{
    redisContext *client = redisConnect("127.0.0.1", count > 3 ? atoi(words[1]) : 0);
    int is_each = count > 3 && strcmp(words[3], "each") == 0, sent = 0;
    for (char line[100]; fgets(line, sizeof line, stdin); sent++) {
        line[strcspn(line, "\n")] = 0;
        redisAppendCommand(client, line);
        if (is_each)
            show(client);
    }
    for (; !is_each && sent > 0; sent--)
        show(client);
    redisFree(client);
}
