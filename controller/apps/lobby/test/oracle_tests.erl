%% Compares the gateway, as a function, with the effects of commands in RFC 3525.
-module(oracle_tests).

-include_lib("eunit/include/eunit.hrl").

-define(REMOTE(Port), "Remote{v=0\nc=IN IP4 127.0.0.1\nm=audio " ++ integer_to_list(Port) ++ " RTP/AVP 0\n}").

request(Number, Text) -> io_lib:format("MEGACO/1 [127.0.0.1]:2945 Transaction=~b{~s}", [Number, Text]).
ack(Numbers) -> ["MEGACO/1 [127.0.0.1]:2945 TransactionResponseAck{", Numbers, "}"].
add(N) -> ["Context=${", lists:join(",", lists:duplicate(N, "Add=$")), "}"].

mode(Which, Mode) ->
    ["Modify=", Which, "{Media{LocalControl{Mode=", Mode, "},Local{v=0\nc=IN IP4 $\nm=audio $ RTP/AVP 0\n},",
     ?REMOTE(4000), "}}"].

%% Returns the last replies, and the world after these datagrams.
run(Datagrams, Oracle) -> run(Datagrams, oracle:new(Oracle), Oracle).

run(Datagrams, World, Oracle) ->
    lists:foldl(fun(Datagram, {_, Before}) -> oracle:run(Oracle, Before, Datagram) end, {[], World}, Datagrams).

world(Datagrams, Oracle) -> element(2, run(Datagrams, Oracle)).
world(Datagrams, World, Oracle) -> element(2, run(Datagrams, World, Oracle)).

%% Returns the action in the only reply.
answer(Datagrams, Oracle) ->
    {[Answer], _} = run(Datagrams, Oracle),
    {match, [Text]} = re:run(Answer, "Reply=\\d+\\{(.*)\\}$", [dotall, {capture, all_but_first, list}]),
    Text.

%% Returns datagrams that make two members of context 1 hear each other.
talking() -> [request(1, add(2)), request(2, ["Context=1{", mode("*", "SendReceive"), "}"])].

with(Options, Test) ->
    {setup, fun() -> oracle:start(Options) end, fun oracle:stop/1, fun(Oracle) -> Test(Oracle) end}.

with(Test) -> with(#{slots => 6}, Test).

commands_lead_to_flows_test_() ->
    with(fun(Oracle) ->
        After = fun(Action) -> oracle:flows(Oracle, world(talking() ++ [request(3, Action)], Oracle)) end,
        [?_assertEqual([], oracle:flows(Oracle, oracle:new(Oracle))),
         ?_assertEqual([], oracle:flows(Oracle, world([request(1, add(2))], Oracle))),
         ?_assertEqual([{1, 2}, {2, 1}], oracle:flows(Oracle, world(talking(), Oracle))),
         ?_assertEqual([], After("Context=1{Topology{RTP/1,RTP/2,Isolate}}")),
         ?_assertEqual([{1, 2}], After("Context=1{Topology{RTP/1,RTP/2,Oneway}}")),
         ?_assertEqual([{2, 1}], After("Context=1{Topology{RTP/2,RTP/1,Oneway}}")),
         %% The gateway only receives from RTP/1.
         ?_assertEqual([{1, 2}], After(["Context=1{", mode("RTP/1", "ReceiveOnly"), "}"])),
         ?_assertEqual([], After("Context=1{Subtract=RTP/1{Audit{}}}")),
         ?_assertEqual([], After("Context=${Move=RTP/1}"))]
    end).

terminations_have_places_test_() ->
    with(fun(Oracle) ->
        Moved = oracle:terminations(Oracle, world(talking() ++ [request(3, "Context=${Move=RTP/2}")], Oracle)),
        Ended = oracle:terminations(Oracle, world(talking() ++ [request(3, "Context=1{Subtract=*{Audit{}}}")], Oracle)),
        [?_assertMatch(#{1 := #{context := 1, port := 30000, mode := 'SendReceive', hears := []},
                         2 := #{context := 2, port := 30002, mode := 'SendReceive', hears := []}}, Moved),
         ?_assertEqual(#{}, Ended)]
    end).

remotes_are_known_test_() ->
    with(fun(Oracle) ->
        [?_assertEqual(#{}, oracle:remotes(Oracle, world([request(1, add(2))], Oracle))),
         ?_assertEqual(maps:from_keys([1, 2], {<<"127.0.0.1">>, <<"4000">>}), oracle:remotes(Oracle, world(talking(), Oracle)))]
    end).

%% A duplicate request isn't run again until its reply is acknowledged.
a_copy_changes_nothing_test_() ->
    with(fun(Oracle) ->
        Add = request(1, add(2)),
        {Replies, World} = run([Add], Oracle),
        Acknowledged = fun(Numbers) -> run([Add, ack(Numbers), Add], Oracle) end,
        Made = fun({_, After}) -> lists:sort(maps:keys(oracle:terminations(Oracle, After))) end,
        [?_assertEqual({Replies, World}, run([Add, Add], Oracle)),
         ?_assertEqual([1, 2, 3, 4], Made(Acknowledged("1"))),
         ?_assertEqual([1, 2, 3, 4], Made(Acknowledged("9,1-2"))),
         ?_assertEqual([1, 2], Made(Acknowledged("2-9,11"))),
         %% Dropping a kept reply leads to another world, in both forms of an acknowledgement.
         ?_assertNotEqual(World, world([Add, ack("1")], Oracle)),
         ?_assertEqual(world([Add, ack("1")], Oracle), world([Add, "MEGACO/1 [127.0.0.1]:2945 K{1}"], Oracle)),
         ?_assertEqual({[], World}, run([Add, ack("2")], Oracle))]
    end).

seats_are_few_test_() ->
    with(#{slots => 3}, fun(Oracle) ->
        [?_assertEqual("Context=2{Add=RTP/3}", answer([request(1, add(2)), request(2, add(1))], Oracle)),
         ?_assertMatch("Context=2{Add=RTP/3,Add=${Error=432{" ++ _,
                       answer([request(1, add(2)), request(2, add(2))], Oracle))]
    end).

%% A result doesn't depend on other datagrams that were run in the same world.
branches_are_apart_test_() ->
    with(fun(Oracle) ->
        World = world(talking(), Oracle),
        Isolated = world([request(3, "Context=1{Topology{RTP/1,RTP/2,Isolate}}")], World, Oracle),
        Ended = world([request(3, "Context=1{Subtract=*{Audit{}}}")], World, Oracle),
        Back = world([request(4, "Context=1{Topology{RTP/1,RTP/2,Bothway}}")], Isolated, Oracle),
        [?_assertEqual([{1, 2}, {2, 1}], oracle:flows(Oracle, World)),
         ?_assertEqual([], oracle:flows(Oracle, Isolated)),
         ?_assertEqual(#{}, oracle:terminations(Oracle, Ended)),
         ?_assertEqual([{1, 2}, {2, 1}], oracle:flows(Oracle, Back))]
    end).

%% Scripts that lead to the same content lead to the same world. Otherwise, a search would meet many more worlds.
the_same_content_is_the_same_world_test_() ->
    with(fun(Oracle) ->
        World = world(talking(), Oracle),
        Audited = world([request(9, "Context=1{ContextAudit{Topology}}"), ack("9")], World, Oracle),
        Isolate = fun(N) -> request(N, "Context=1{Topology{RTP/1,RTP/2,Isolate}}") end,
        Bothway = fun(N) -> request(N, "Context=1{Topology{RTP/1,RTP/2,Bothway}}") end,
        [?_assertEqual(World, Audited),
         ?_assertEqual(World, world([Isolate(3), Bothway(4), ack("3-4")], World, Oracle)),
         ?_assertEqual(world([Isolate(3), ack("3")], World, Oracle),
                       world([Isolate(3), Bothway(4), Isolate(5), ack("3-5")], World, Oracle))]
    end).

%% Media belong to the content, in all spellings of the context in the request.
media_belong_to_the_content_test_() ->
    with(fun(Oracle) ->
        Add = "{Add=${Media{LocalControl{nt/jit=200}}}}",
        Audits = [maps:get(audit, oracle:content(Oracle, world([request(1, [In, Add])], Oracle)))
                  || In <- ["Context=$", "C=$", "Context = $"]],
        [?_assertMatch([#{1 := _}], lists:usort(Audits)),
         ?_assertMatch({match, _}, re:run(maps:get(1, hd(Audits)), "nt/jit=200"))]
    end).

%% A setting that can't be heard may matter later.
other_content_is_another_world_test_() ->
    with(fun(Oracle) ->
        World = world([request(1, add(2)), ack("1")], Oracle),
        Other = [[request(2, "Context=1{Topology{RTP/1,RTP/2,Isolate}}")],
                 [request(2, ["Context=1{Modify=RTP/1{Media{", ?REMOTE(4000), "}}}"])],
                 [request(2, ["Context=1{Modify=RTP/1{Media{", ?REMOTE(4002), "}}}"])],
                 [request(2, "Context=1{Modify=RTP/1{Media{LocalControl{nt/jit=200}}}}")],
                 %% In this world, the order of entry is reversed.
                 [request(2, "Context=${Move=RTP/2}"), request(3, "Context=2{Move=RTP/1}")],
                 [request(2, "Context=${Move=RTP/1}"), request(3, "Context=2{Move=RTP/2}")],
                 %% This world has higher last numbers.
                 [request(2, add(1)), request(3, "Context=2{Subtract=*{Audit{}}}")]],
        Worlds = [World | [world(Script ++ [ack("2-3")], World, Oracle) || Script <- Other]],
        [?_assertEqual(length(Worlds), length(lists:usort(Worlds))),
         %% This world keeps a reply.
         ?_assertNotEqual(World, world([request(2, "Context=1{ContextAudit{Topology}}")], World, Oracle))]
    end).

a_gateway_begins_again_test_() ->
    with(fun(Oracle) ->
        Again = oracle:restart(world(talking(), Oracle)),
        [?_assertEqual(oracle:new(Oracle), Again),
         ?_assertEqual(#{}, oracle:terminations(Oracle, Again)),
         ?_assertMatch(#{1 := _, 2 := _}, oracle:terminations(Oracle, world([request(1, add(2))], Again, Oracle)))]
    end).

a_journal_may_lack_its_end_test_() ->
    with(#{lost => 2}, fun(Oracle) ->
        Isolated = world(talking() ++ [request(3, "Context=1{Topology{RTP/1,RTP/2,Isolate}}")], Oracle),
        Flows = fun(World) -> oracle:flows(Oracle, World) end,
        Resumed = oracle:resume(Isolated, 1),
        [?_assertEqual(Isolated, oracle:resume(Isolated, 0)),
         ?_assertEqual([{1, 2}, {2, 1}], Flows(Resumed)),
         ?_assertEqual([], Flows(oracle:resume(Isolated, 2))),
         %% The gateway continues from there, and at a later restart, its journal may lack the end of that, too.
         ?_assertEqual([], Flows(world([request(3, "Context=1{Topology{RTP/1,RTP/2,Isolate}}")], Resumed, Oracle))),
         ?_assertEqual(oracle:resume(Isolated, 2), oracle:resume(Resumed, 1)),
         %% A journal can't lack more than `lost' datagrams.
         ?_assertEqual(oracle:resume(Isolated, 2), oracle:resume(Isolated, 3))]
    end).

%% Without `lost', worlds don't depend on earlier worlds.
what_came_before_does_not_matter_test_() ->
    with(fun(Oracle) -> ?_assertEqual(world(talking(), Oracle), oracle:resume(world(talking(), Oracle), 1)) end).

an_answer_is_asked_once_test_() ->
    with(fun(Oracle) ->
        _ = world(talking(), Oracle),
        Before = oracle:statistics(Oracle),
        _ = world(talking(), Oracle),
        [?_assertMatch(#{worlds := 3, answers := 2}, Before),
         ?_assertEqual(Before, oracle:statistics(Oracle))]
    end).

any_bytes_are_answered_test_() ->
    with(fun(Oracle) ->
        [?_assertMatch({[<<"MEGACO/1 [127.0.0.1]:2944\nError=400{\"syntax\"}">>], _}, run([Bytes], Oracle))
         || Bytes <- [<<>>, <<"x">>, <<0, 10, 13, 92, 255>>, binary:copy(<<"\\n">>, 4000)]]
    end).

%% The gateway's numbers begin as the options say.
options_are_passed_on_test_() ->
    with(#{arguments => ["--first-termination", "1000001", "--first-context", "2000001"]}, fun(Oracle) ->
        ?_assertEqual("Context=2000001{Add=RTP/1000001}", answer([request(1, add(1))], Oracle))
    end).

%% If the program ends, no result is invented.
a_gateway_that_ends_is_an_error_test() ->
    Oracle = oracle:start(#{arguments => ["--nonsense"]}),
    ?assertError({gateway_ended, _, _}, oracle:run(Oracle, oracle:new(Oracle), "x")).

%% The gateway drops a reply once 32 others follow, one of which is the reply to the oracle's own audit.
too_many_kept_replies_are_an_error_test_() ->
    {timeout, 20, fun() ->
        Oracle = oracle:start(#{}),
        Audits = [request(N, "Context=1{ContextAudit{Topology}}") || N <- lists:seq(1, 32)],
        {[_], World} = run(lists:droplast(Audits), Oracle),
        ?assertError({too_many_kept_replies, 32}, run([lists:last(Audits)], World, Oracle))
    end}.

%% This search looks for a flow that is open in only one direction.
a_search_of_the_gateway_test_() ->
    with(fun(Oracle) ->
        Requests = [[add(2)], ["Context=1{", mode("*", "SendReceive"), "}"],
                    ["Context=1{", mode("RTP/1", "Inactive"), "}"],
                    ["Context=1{Topology{RTP/1,RTP/2,Oneway}}"], ["Context=1{Subtract=RTP/1}"]],
        Model = #{start => oracle:new(Oracle),
                  events => fun(_) -> lists:seq(1, length(Requests)) end,
                  step => fun(N, World) -> world([request(N, lists:nth(N, Requests)), ack("1-9")], World, Oracle) end,
                  broken => fun(World) -> case oracle:flows(Oracle, World) of [{1, 2}] -> [oneway]; _ -> [] end end},
        Result = search:breadth(Model, #{depth => 5}),
        #{levels := [_, _ | Levels]} = Again = search:breadth(Model, #{depth => 4, all => true, workers => 3}),
        [?_assertMatch(#{limit := broken, found := [#{way := [1, 2, 4]}]}, Result),
         ?_assertMatch(#{limit := depth, found := [#{way := [1, 2, 4]}]}, Again),
         ?_assertMatch([{2, _, _, _}, {3, _, _, _}, {4, _, _, _}], Levels)]
    end).

%% If the gateway can't report a context with many members, the oracle fails.
a_large_context_is_an_error_test() ->
    Oracle = oracle:start(#{slots => 64}),
    ?assertError({badmatch, [_]}, run([request(1, add(64))], Oracle)).

%% Several processes run random scripts at once, with few gateways running at a time.
scripts_with_the_same_content_go_on_alike_test_() ->
    {timeout, 120, with(#{slots => 4, servers => 2, processes => 3}, fun(Oracle) ->
        Parts = [spawn_monitor(fun() -> exit([walk(Seed, Oracle) || Seed <- lists:seq(From, 60, 4)]) end)
                 || From <- lists:seq(1, 4)],
        Ends = [receive {'DOWN', Monitor, process, _, Worlds} -> Worlds end || {_, Monitor} <- Parts],
        {Compared, Differ} = oracle:recheck(Oracle, 200),
        [?_assertEqual([], Differ), ?_assertEqual(200, Compared),
         %% Each script leads to the same content when it is run alone, with all gateways running.
         ?_assertEqual([oracle:content(Oracle, End) || End <- lists:append(Ends)], alone())]
    end)}.

%% Servers that find the same content at the same time agree on its world.
servers_agree_test_() ->
    {timeout, 120, with(#{slots => 4, servers => 4}, fun(Oracle) ->
        Parts = [spawn_monitor(fun() -> exit([walk(Seed, Oracle) || Seed <- lists:seq(1, 10)]) end)
                 || _ <- lists:seq(1, 12)],
        Ends = [receive {'DOWN', Monitor, process, _, Worlds} -> Worlds end || {_, Monitor} <- Parts],
        [?_assertMatch([[_ | _]], lists:usort(Ends)),
         %% Each walk has twelve datagrams.
         ?_assertMatch(#{answers := Answers} when Answers =< 12 * 10, oracle:statistics(Oracle))]
    end)}.

%% This program counts its datagrams, so the same content can have different results.
other_answers_are_noticed_test() ->
    Folder = string:trim(os:cmd("mktemp -d")),
    Program = filename:join(Folder, "counting"),
    ok = file:write_file(Program, ["#!/bin/sh\nn=0\nwhile read -r kind to _; do\n    case $kind in\n",
                                   "    control) n=$((n + 1)); echo \"say $to $n\" ;;\n",
                                   "    *) echo \"say $to end\" ;;\n    esac\ndone\n"]),
    ok = file:change_mode(Program, 8#700),
    Bridge = os:getenv("BRIDGE"),
    true = os:putenv("BRIDGE", Program),
    Oracle = oracle:start(#{}),
    {[<<"1">>], World} = oracle:run(Oracle, oracle:new(Oracle), "x"),
    ?assertEqual(oracle:new(Oracle), World),
    ?assertEqual({1, [{[<<"x">>], <<"x">>}]}, oracle:recheck(Oracle, 9)),
    ok = oracle:stop(Oracle),
    true = case Bridge of false -> os:unsetenv("BRIDGE"); _ -> os:putenv("BRIDGE", Bridge) end,
    "" = os:cmd("rm -r " ++ Folder).

alone() ->
    Oracle = oracle:start(#{slots => 4}),
    Contents = [oracle:content(Oracle, walk(Seed, Oracle)) || From <- lists:seq(1, 4), Seed <- lists:seq(From, 60, 4)],
    ok = oracle:stop(Oracle),
    Contents.

%% Runs a random script: requests with new and old numbers, and acknowledgements.
walk(Seed, Oracle) ->
    walk(12, rand:seed_s(exsss, Seed), 1, oracle:new(Oracle), Oracle).

walk(0, _, _, World, _) -> World;
walk(Left, Rand0, Number, World, Oracle) ->
    Terminations = [1, 9 | maps:keys(oracle:terminations(Oracle, World))],
    {Kind, Rand1} = rand:uniform_s(10, Rand0),
    {I, Rand2} = rand:uniform_s(length(Terminations), Rand1),
    {J, Rand} = rand:uniform_s(length(Terminations), Rand2),
    [A, B] = [integer_to_list(lists:nth(Nth, Terminations)) || Nth <- [I, J]],
    {_, Next} = oracle:run(Oracle, World, datagram(Kind, Number, A, B)),
    walk(Left - 1, Rand, Number + 1, Next, Oracle).

datagram(1, N, _, _) -> request(N, add(1 + N rem 3));
datagram(2, N, _, _) -> request(N, ["Context=1{Add=${Media{LocalControl{Mode=SendReceive}}}}"]);
datagram(3, N, A, B) -> request(N, ["Context=1{Topology{RTP/", A, ",RTP/", B, ",Isolate}}"]);
datagram(4, N, A, B) -> request(N, ["Context=1{Add=$,Topology{RTP/", A, ",RTP/", B, ",Oneway}}"]);
datagram(5, N, A, _) -> request(N, ["Context=1{", mode("RTP/" ++ A, "SendReceive"), "}"]);
datagram(6, N, A, _) -> request(N, ["Context=${Move=RTP/", A, "}"]);
datagram(7, N, A, B) -> request(N, ["Context=1{Subtract=RTP/", A, "{Audit{}},Add=$,Subtract=RTP/", B, "}"]);
datagram(8, N, _, _) -> ack(io_lib:format("1-~b", [N]));
datagram(9, N, A, _) -> request(max(1, N - 1), ["Context=1{Subtract=RTP/", A, "}"]);
datagram(10, N, _, _) -> request(N, "Context=1{ContextAudit{Topology},AuditValue=*{Audit{Media}}}").
