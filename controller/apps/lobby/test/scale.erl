%% Measures many callers in many rooms on many simulated gateways, with a pair of controllers: how fast callers join,
%% the resources that this takes, and the durations of a takeover and of a loss of gateways. trials/controller/scale.sh
%% runs it.
-module(scale).

-export([main/1]).

-define(TIMEOUT, 300000).

%% usage: scale CALLERS ROOMS GATEWAYS LOST
main(Arguments) ->
    [Callers, Rooms, Gateways, Lost] = [list_to_integer(A) || A <- Arguments],
    Folder = string:trim(os:cmd("mktemp -d")),
    _ = os:cmd("mkdir " ++ Folder ++ "/a " ++ Folder ++ "/b"),
    Simulated = [simulated_gateway:start(integer_to_binary(N), 1000 * N) || N <- lists:seq(1, Gateways)],
    Common = [{gateways, [(simulated_gateway:config(G))#{terminations => 256, contexts => 64, tries => 10} || G <- Simulated]},
              {sip, gateway:free_address()}, {http, gateway:free_address()}, {max_calls, 100000}, {silent_after, 3600000}, {proxies, [{{127, 0, 0, 1}, 32}]}, {store, disc},
              {tokens, [{<<"a-token-for-trials">>, operator}]}],
    {_, Port} = gateway:free_address(),
    A = node_of(a, Folder, Port, Common),
    ok = peer:call(A, lobby_pair, command, [create, pair(a, Folder)]),
    started(A),
    B = node_of(b, Folder, Port, Common),
    started(B),
    lobby_case:until(fun() -> lists:all(fun(N) -> peer:call(N, lobby_store, is_open, []) end, [A, B]) end, ?TIMEOUT),
    ok = file:write_file(Folder ++ "/a/lease", ""),
    lobby_case:until(fun() -> serving(A) =:= Gateways end, ?TIMEOUT),
    Phones = phones:start(proplists:get_value(sip, Common), Callers, Rooms),
    Joined = phones:call(Phones, 64),
    io:format("~b callers in ~b rooms on ~b gateways joined in ~.1f s: ~b a second; INVITE to 200: ~b ms at the median, ~b at most~n",
              [Callers, Rooms, Gateways, maps:get(took, Joined) / 1000, round(1000 * Callers / maps:get(took, Joined)), maps:get(median, Joined), maps:get(max, Joined)]),
    io:format("memory of the node that serves: ~b MB, of the standby: ~b MB~n", [memory(A), memory(B)]),
    Ids = peer:call(A, lobby_store, keys, [lobby_members]),
    Times = lists:sort([isolated(lists:nth(rand:uniform(length(Ids)), Ids), proplists:get_value(http, Common)) || _ <- lists:seq(1, 1000)]),
    io:format("isolate by HTTP: ~.1f ms at the median, ~.1f ms at 99 %, ~.1f ms at most~n",
              [lists:nth(N, Times) / 1000 || N <- [500, 990, 1000]]),
    timer:sleep(5000),
    io:format("the node that serves uses ~.2f processors while nobody joins~n", [used(A, 10)]),
    Before = [simulated_gateway:contexts(G) || G <- Simulated],
    phones:forget(Phones),
    Start = now_ms(),
    _ = os:cmd("kill -9 " ++ peer:call(A, os, getpid, [])),
    ok = file:delete(Folder ++ "/a/lease"),
    ok = file:write_file(Folder ++ "/b/lease", ""),
    Answered = phones:options(Phones) - Start,
    lobby_case:until(fun() -> serving(B) =:= Gateways end, ?TIMEOUT),
    Serving = now_ms() - Start,
    phones:asked(Phones, Callers, ?TIMEOUT),
    io:format("kill -9: a call is answered after ~b ms, all gateways serve after ~b ms, all callers were asked and answered after ~b ms~n",
              [Answered, Serving, now_ms() - Start]),
    io:format("the gateways have the same contexts and terminations: ~p~n", [Before =:= [simulated_gateway:contexts(G) || G <- Simulated]]),
    {Killed, Left} = lists:split(Lost, Simulated),
    Affected = lists:sum([T - 1 || G <- Killed, {_, T} <- [simulated_gateway:contexts(G)]]),
    phones:forget(Phones),
    Loss = now_ms(),
    [simulated_gateway:kill(G) || G <- Killed],
    phones:asked(Phones, Affected, ?TIMEOUT),
    io:format("~b gateways with ~b callers lost at once: all callers were re-invited and answered after ~b ms~n", [Lost, Affected, now_ms() - Loss]),
    io:format("terminations on the others: ~b~n", [lists:sum([T - 1 || G <- Left, {_, T} <- [simulated_gateway:contexts(G)]])]),
    io:format("memory of the node that serves: ~b MB~n", [memory(B)]),
    _ = os:cmd("kill -9 " ++ peer:call(B, os, getpid, []) ++ "; sleep 1; rm -r " ++ Folder),
    halt(0).

%% Isolates a member. Returns the microseconds from the request until the response.
isolated(Id, {Address, Port}) ->
    {ok, Socket} = gen_tcp:connect(Address, Port, [binary, {active, false}, {nodelay, true}]),
    Start = erlang:monotonic_time(microsecond),
    ok = gen_tcp:send(Socket, ["POST /members/", Id, "/isolate HTTP/1.1\r\nHost: x\r\nAuthorization: Bearer a-token-for-trials\r\n"
                               "Connection: close\r\nContent-Length: 0\r\n\r\n"]),
    {ok, <<"HTTP/1.1 200", _/binary>>} = gen_tcp:recv(Socket, 0, 10000),
    Took = erlang:monotonic_time(microsecond) - Start,
    ok = gen_tcp:close(Socket),
    Took.

now_ms() -> erlang:monotonic_time(millisecond).

pair(Name, Folder) ->
    Own = Folder ++ "/" ++ atom_to_list(Name),
    {Self, Peer} = case Name of a -> {'lobby@127.0.1.1', 'lobby@127.0.1.2'}; b -> {'lobby@127.0.1.2', 'lobby@127.0.1.1'} end,
    #{self => Self, peer => Peer, cookie => <<"0123456789abcdef">>, gap => 250, lease => {file, Own ++ "/lease"}, ready => none}.

node_of(Name, Folder, Port, Common) ->
    Own = Folder ++ "/" ++ atom_to_list(Name),
    {ok, Peer, _} = peer:start(#{connection => standard_io, wait_boot => 60000,
                                 args => ["+sbwt", "none", "-start_epmd", "false", "-erl_epmd_port", integer_to_list(Port), "-mnesia", "dir", "\"" ++ Own ++ "/db\"",
                                          "-mnesia", "dump_log_write_threshold", "50000", "-pa" | code:get_path()]}),
    ok = peer:call(Peer, application, load, [lobby]),
    [ok = peer:call(Peer, application, set_env, [lobby, Key, Value]) || {Key, Value} <- [{pair, pair(Name, Folder)} | Common]],
    ok = peer:call(Peer, lobby_pair, distribute, [pair(Name, Folder)]),
    Peer.

started(Peer) ->
    {ok, _} = peer:call(Peer, application, ensure_all_started, [lobby], 60000),
    ok.

serving(Peer) ->
    case peer:call(Peer, erlang, whereis, [lobby_connections], 60000) of
        undefined -> 0;
        _ -> length(peer:call(Peer, lobby_gateway, serving, [], 60000))
    end.

%% Returns the resident memory in MB.
memory(Peer) ->
    Text = os:cmd("grep VmRSS /proc/" ++ peer:call(Peer, os, getpid, []) ++ "/status"),
    {match, [Kb]} = re:run(Text, "(\\d+) kB", [{capture, all_but_first, list}]),
    list_to_integer(Kb) div 1024.

used(Peer, Seconds) ->
    Ticks = fun() ->
        Stat = lists:nthtail(13, string:lexemes(os:cmd("cat /proc/" ++ peer:call(Peer, os, getpid, []) ++ "/stat"), " ")),
        list_to_integer(hd(Stat)) + list_to_integer(lists:nth(2, Stat))
    end,
    Before = Ticks(),
    timer:sleep(1000 * Seconds),
    (Ticks() - Before) / 100 / Seconds.
