#!/bin/sh
# Asks a server that serves rooms.jsonl, at port 8008 or the one that is given. Run it in this folder.
server=http://127.0.0.1:${1:-8008}/_matrix/federation
a='Authorization: X-Matrix origin="a.example"'
b='Authorization: X-Matrix origin="b.example"'
room='%21r%3Aa.example'
join='%24iaUMurfLs2QtGy52u42OOYo7pYFhXnZZCgmz0e0uSuE'
message='%24ILhuK8LQMtQouv8ohzy1GLRMWMxOvLpNX487yMjo1Co'

# a.example sends what its user A did in the room: join it, give power levels, and let everybody join.
curl -s -T transaction.json -H "$a" "$server/v1/send/t1"
echo
# b.example sends the join of its user B, and is told the room's state: here only that it was let in.
curl -s -T join.json -H "$b" -o /dev/null -w '%{http_code}\n' "$server/v2/send_join/$room/$join"
# B sends a message.
curl -s -T message.json -H "$b" "$server/v1/send/t1"
echo
# The ids of the state before the message, and of their auth chains.
curl -s -H "$b" "$server/v1/state_ids/$room?event_id=$message"
echo
