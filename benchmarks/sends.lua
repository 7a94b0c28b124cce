-- For wrk: each thread sends the events of a file of its own, FOLDER/1, FOLDER/2 and so on, one a line, each in a
-- transaction of its own. The folder is wrk's own argument.
local threads = 0

function setup(thread)
    threads = threads + 1
    thread:set("number", threads)
end

function init(arguments)
    bodies = {}
    for line in io.lines(arguments[1] .. "/" .. number) do
        bodies[#bodies + 1] = line
    end
    sent = 0
end

function request()
    sent = sent + 1
    if sent > #bodies then
        wrk.thread:stop()
        sent = #bodies
    end
    return wrk.format("PUT", "/_matrix/federation/v1/send/w" .. number .. "-" .. sent, nil, bodies[sent])
end
