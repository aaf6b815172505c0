%% Tests two nodes with one gateway. Files represent the lease: the node whose file exists serves.
-module(lobby_pair_SUITE).

-include_lib("common_test/include/ct.hrl").
-include_lib("stdlib/include/assert.hrl").

-compile([export_all]).

%% The pair's `gap', in milliseconds. It is long here, so that no node exits because a busy machine pauses for some
%% hundred milliseconds.
-define(GAP, 2500).
-define(SHORT_GAP, 1000).

suite() -> [{timetrap, {seconds, 180}}].

all() ->
    [the_other_node_takes_over, a_node_that_returns_connects_late, a_node_that_hung_ends_itself, after_a_gap_nothing_is_sent,
     nothing_is_sent_without_a_look_at_the_lease,
     a_node_without_the_lease_ends, nobody_serves_without_the_lease, a_standby_alone_ends_and_waits,
     both_end_and_begin, a_node_leaves_and_joins, without_the_other_node, what_the_standby_lacks_is_not_durable,
     what_the_standby_lacks_was_not_answered, a_change_waits_for_the_standby, a_conference_waits_for_the_standby,
     a_standby_that_ended_costs_nothing, a_standby_that_hangs, a_standby_whose_process_is_started_again,
     a_busy_file_server, nobody_takes_over,
     what_a_node_that_hung_has_sent_is_stale, what_a_node_that_hung_has_sent_is_run_without_a_fence,
     what_a_node_that_was_cut_off_has_sent_is_stale, what_a_node_that_was_cut_off_has_sent_is_run_without_a_fence].

init_per_testcase(Case, Config) -> begun(Case, Config, 3).

%% Starts a case again if the machine paused and a node, which couldn't check its lease in time, has exited.
begun(Case, Config, Tries) ->
    try begun(Case, Config)
    catch exit:{_, {gen_server, call, _}} when Tries > 1 ->
        ok = ended_all(),
        begun(Case, Config, Tries - 1)
    end.

begun(Case, Config) ->
    Folder = string:trim(os:cmd("mktemp -d")),
    {_, Port} = gateway:free_address(),
    Is = fun(Text) -> string:find(atom_to_list(Case), Text) =/= nomatch end,
    G = gateway:start(case Is("without_a_fence") of true -> []; false -> ["--fence", "--controller", "127.0.0.1"] end),
    Relay = relay:start(gateway:address(G), #{lose => 0.0, double => 0.0, delay => 1}),
    As = gateway:config(<<"1">>, G),
    %% In these cases, rooms audit so rarely that no audit corrects a request that is run late.
    Env = case Is("has_sent") of
        true -> [{gateways, [As#{address := relay:address(Relay), quiet => 500}]}, {room_audit, 600000}];
        false -> [{gateways, [As]}]
    end,
    Config1 = [{folder, Folder}, {port, Port}, {sip, gateway:free_address()}, {http, gateway:free_address()}, {gateway, G},
               {relay, Relay}, {own_ports, Is("node_that_hung")}, {gap, gap(Case)}, {env, Env} | Config],
    A = node_of(a, Config1),
    ok = peer:call(A, lobby_pair, command, [create, pair(a, Config1)]),
    ok = started(A),
    B = started_node(b, Config1),
    lobby_case:until(fun() -> is_open(A) andalso is_open(B) end),
    lease(a, Config1),
    lobby_case:until(fun() -> serves(A) end),
    [{a, A}, {b, B} | Config1].

%% A write waits until the standby that hangs is disconnected, and this case tests what follows.
gap(a_standby_that_hangs) -> ?SHORT_GAP;
gap(_) -> ?GAP.

end_per_testcase(_, Config) ->
    ok = ended_all(),
    %% The programs that write the files exit a moment later than the nodes.
    "" = os:cmd("sleep 0.5; rm -r " ++ proplists:get_value(folder, Config)),
    Config.

ended_all() ->
    _ = os:cmd("kill -9 " ++ lists:flatten(lists:join(" ", persistent_term:get(?MODULE, [])))),
    persistent_term:put(?MODULE, []),
    _ = gateway:kill_all(),
    ok.

%%% Helpers.

get(Key, Config) -> proplists:get_value(Key, Config).
sip(Config) -> get(sip, Config).
file(Name, Kind, Config) -> filename:join(get(folder, Config), lists:concat([Name, ".", Kind])).

name(a) -> 'lobby@127.0.1.1';
name(b) -> 'lobby@127.0.1.2'.
other(a) -> b;
other(b) -> a.

cookie(Config) -> proplists:get_value(cookie, Config, <<"0123456789abcdef">>).

pair(Name, Config) ->
    #{self => name(Name), peer => name(other(Name)), cookie => cookie(Config), gap => get(gap, Config),
      lease => {file, file(Name, lease, Config)}, ready => file(Name, ready, Config)}.

%% Starts a node with its name and configuration.
node_of(Name, Config) ->
    {ok, Peer, _} = peer:start(#{connection => standard_io, wait_boot => 60000,
                                 args => ["-start_epmd", "false", "-erl_epmd_port", integer_to_list(get(port, Config)),
                                          "-mnesia", "dir", "\"" ++ file(Name, db, Config) ++ "\"", "-pa" | code:get_path()]}),
    persistent_term:put(?MODULE, [peer:call(Peer, os, getpid, []) | persistent_term:get(?MODULE, [])]),
    ok = peer:call(Peer, application, load, [lobby]),
    [ok = peer:call(Peer, application, set_env, [lobby, Key, Value])
     || {Key, Value} <- get(env, Config) ++ [{store, disc}, {pair, pair(Name, Config)} | addresses(Name, Config)]],
    ok = peer:call(Peer, lobby_pair, distribute, [pair(Name, Config)], 30000),
    Peer.

%% A node that hangs keeps its ports, so the other node gets its own ports.
addresses(Name, Config) ->
    case get(own_ports, Config) andalso Name =:= b of
        true -> [{sip, gateway:free_address()}, {http, gateway:free_address()}];
        false -> [{sip, sip(Config)}, {http, get(http, Config)}]
    end.

started(Peer) ->
    {ok, _} = peer:call(Peer, application, ensure_all_started, [lobby], 60000),
    ok.

started_node(Name, Config) ->
    Peer = node_of(Name, Config),
    ok = started(Peer),
    Peer.

is_open(Peer) -> peer:call(Peer, lobby_store, is_open, []).

serves(Peer) ->
    peer:call(Peer, erlang, whereis, [lobby_connections]) =/= undefined andalso length(peer:call(Peer, lobby_gateway, serving, [])) =:= 1.

lease(Name, Config) ->
    _ = file:delete(file(other(Name), lease, Config)),
    ok = file:write_file(file(Name, lease, Config), "").

signal(Signal, Peer, Config) ->
    Os = hd([Pid || {Node, Pid} <- [{get(a, Config), get(os_a, Config)}, {get(b, Config), get(os_b, Config)}], Node =:= Peer]),
    "" = os:cmd("kill -" ++ Signal ++ " " ++ Os),
    _ = [lobby_case:until(fun() -> has_stopped(Os) end) || Signal =:= "STOP"],
    ok.

%% Returns whether all threads of a process have stopped, which takes a moment after the signal.
has_stopped(Os) ->
    lists:all(fun(File) ->
        {ok, Text} = file:read_file(File),
        [_, <<State, _/binary>>] = string:split(Text, ") ", trailing),
        State =:= $T
    end, filelib:wildcard("/proc/" ++ Os ++ "/task/*/stat")).

with_pids(Config) ->
    [{os_a, peer:call(get(a, Config), os, getpid, [])}, {os_b, peer:call(get(b, Config), os, getpid, [])} | Config].

%% Waits until a node has ended.
ended(Peer) ->
    Monitor = monitor(process, Peer),
    receive {'DOWN', Monitor, process, _, _} -> ok after 20000 -> error(has_not_ended) end.

call(Config) ->
    Phone = phone:start(sip(Config)),
    Calling = phone:invite(phone:sdp(Phone), Phone),
    Response = phone:recv(Calling, 30000),
    ?assertEqual(200, phone:status(Response)),
    Talking = phone:learn(Response, Calling),
    phone:ack(Talking),
    {Talking, Response}.

room(Peer) -> peer:call(Peer, people, describe, [<<"100">>]).

%% Returns the number with which the node's messages to the gateway begin.
number(Peer) ->
    {ok, Number} = peer:call(Peer, lobby_store, get, [lobby_settings, {number, <<"1">>}]),
    Number.

flows(Peer, Config) ->
    #{context := Context} = room(Peer),
    length(gateway:topology(Context, get(gateway, Config))).

%% Checks that a phone gets a re-INVITE with the same address after a takeover, and answers it.
asked(Phone, Response) ->
    Invite = phone:recv(Phone, 30000),
    ?assertEqual({"INVITE", media_line(Response)}, {phone:status(Invite), media_line(Invite)}),
    phone:answer(200, Invite, phone:sdp(Phone), Phone),
    ?assertEqual("ACK", phone:status(phone:recv(Phone))).

media_line(Text) ->
    {match, [Line]} = re:run(Text, "m=audio (\\d+)", [{capture, all_but_first, list}]),
    Line.

%%% Cases.

%% Calls and a rule survive a takeover. A retransmitted INVITE gets a 200 with the same tag as from the first node.
the_other_node_takes_over(Config0) ->
    Config = [{a, A}, {b, B} | _] = with_pids_first(Config0),
    {Alice, RA} = call(Config),
    {Bob, RB} = call(Config),
    lobby_case:until(fun() -> lists:all(fun(#{acknowledged := Is}) -> Is end, maps:values(maps:get(members, room(A)))) end),
    [Id | _] = maps:keys(maps:get(members, room(A))),
    ok = peer:call(A, people, add_rules, [<<"100">>, people:isolation(Id)]),
    ?assertEqual(0, flows(A, Config)),
    Carol = phone:start(sip(Config)),
    Carol1 = phone:invite(phone:sdp(Carol), Carol),
    RC = phone:recv(Carol1, 30000),
    Before = room(A),
    Number = number(A),
    signal("KILL", A, Config),
    lease(b, Config),
    lobby_case:until(fun() -> serves(B) end),
    %% One node has even numbers, and the other node odd numbers.
    Above = number(B) - Number,
    ?assertEqual({true, 1}, {Above > 0, Above rem 2}),
    %% The node was killed before the ACK arrived, and the phone retransmits its INVITE.
    _ = phone:invite(phone:sdp(Carol), Carol),
    ?assertEqual(phone:header("To", RC), phone:header("To", next_status(200, Carol1))),
    [asked(Phone, R) || {Phone, R} <- [{Alice, RA}, {Bob, RB}]],
    ?assertEqual(Before, room(B)),
    ?assertEqual(2, flows(B, Config)),
    Context = maps:get(context, Before),
    ?assertEqual([1, Context], lists:sort(gateway:contexts(lists:seq(1, 20), get(gateway, Config)))),
    %% The first node comes back as the standby.
    A1 = started_node(a, Config),
    lobby_case:until(fun() -> is_open(A1) end),
    ?assertNot(serves_at_all(A1)),
    ?assertEqual(peer:call(B, lobby_store, all, [lobby_rooms]), peer:call(A1, lobby_store, all, [lobby_rooms])).

%% A node that returns reaches the serving node only after its mnesia was started, and then opens its store.
a_node_that_returns_connects_late(Config0) ->
    Config = [{a, A}, {b, B} | _] = with_pids_first(Config0),
    signal("KILL", A, Config),
    lease(b, Config),
    lobby_case:until(fun() -> serves(B) end),
    A1 = node_of(a, [{cookie, <<"another cookie..">>} | Config]),
    ok = started(A1),
    ?assertNot(is_open(A1)),
    true = peer:call(A1, erlang, set_cookie, [binary_to_atom(cookie([]))]),
    lobby_case:until(fun() -> is_open(A1) end),
    ?assertEqual(peer:call(B, lobby_store, all, [lobby_rooms]), peer:call(A1, lobby_store, all, [lobby_rooms])).

with_pids_first(Config) ->
    [{a, get(a, Config)}, {b, get(b, Config)} | with_pids(Config)].

serves_at_all(Peer) -> peer:call(Peer, erlang, whereis, [lobby_serving]) =/= undefined.

next_status(Status, Phone) ->
    Text = phone:recv(Phone, 30000),
    case phone:status(Text) of
        Status -> Text;
        Other when Other =/= none -> next_status(Status, Phone)
    end.

a_node_that_hung_ends_itself(Config0) ->
    Config = [{a, A}, {b, B} | _] = with_pids_first(Config0),
    {_, _} = call(Config),
    signal("STOP", A, Config),
    %% The node reports to keepalived that it isn't ready.
    lobby_case:until(fun() -> file:read_file(file(a, ready, Config)) =:= {ok, <<"-254\n">>} end),
    ?assertEqual({ok, <<"0\n">>}, file:read_file(file(b, ready, Config))),
    lease(b, Config),
    lobby_case:until(fun() -> serves(B) end),
    ok = peer:call(B, people, set_rules, [<<"100">>, [{deny, everyone, everyone}]]),
    timer:sleep(?GAP),
    signal("CONT", A, Config),
    ended(A),
    timer:sleep(500),
    ?assert(serves(B)),
    ?assertMatch(#{rules := [_]}, room(B)).

%% While the node hung, the other node might have taken over.
after_a_gap_nothing_is_sent(Config0) ->
    Config = [{a, A} | _] = with_pids_first(Config0),
    Phone = phone:start(sip(Config)),
    signal("STOP", A, Config),
    Calling = phone:invite(phone:sdp(Phone), Phone),
    timer:sleep(?GAP + 350),
    signal("CONT", A, Config),
    ended(A),
    ?assertEqual(none, phone:status(phone:recv(Calling, 100))).

%% Only the process that checks the lease hangs.
nothing_is_sent_without_a_look_at_the_lease(Config) ->
    A = get(a, Config),
    settle(),
    ok = peer:call(A, sys, suspend, [lobby_lease]),
    ended(A).

%% The other node doesn't serve without the lease, either.
nobody_serves_without_the_lease(Config) ->
    ok = file:delete(file(a, lease, Config)),
    ended(get(a, Config)),
    ended(get(b, Config)).

a_node_without_the_lease_ends(Config) ->
    A = get(a, Config),
    {_, _} = call(Config),
    lease(b, Config),
    ended(A),
    lobby_case:until(fun() -> serves(get(b, Config)) end),
    ?assertMatch(#{members := Members} when map_size(Members) =:= 1, room(get(b, Config))).

%% A standby that was disconnected from the other node doesn't know that node's changes.
a_standby_alone_ends_and_waits(Config) ->
    {A, B} = {get(a, Config), get(b, Config)},
    timer:sleep(500),
    true = peer:call(B, erlang, disconnect_node, [name(a)]),
    ended(B),
    {_, _} = call(Config),
    B1 = started_node(b, Config),
    lobby_case:until(fun() -> is_open(B1) end),
    ?assertEqual(peer:call(A, lobby_store, all, [lobby_rooms]), peer:call(B1, lobby_store, all, [lobby_rooms])).

%% The node that served last has the right data, and the other node waits for it.
both_end_and_begin(Config0) ->
    Config = with_pids(Config0),
    {A, B} = {get(a, Config), get(b, Config)},
    timer:sleep(500),
    signal("KILL", B, Config),
    ended(B),
    {_, _} = call(Config),
    Rooms = peer:call(A, lobby_store, all, [lobby_rooms]),
    %% Mnesia writes to the disk with a delay.
    timer:sleep(4000),
    signal("KILL", A, Config),
    ended(A),
    lease(b, Config),
    B1 = started_node(b, Config),
    timer:sleep(2000),
    ?assertNot(is_open(B1)),
    ?assertEqual({ok, <<"-254\n">>}, file:read_file(file(b, ready, Config))),
    A1 = started_node(a, Config),
    lobby_case:until(fun() -> is_open(A1) andalso is_open(B1) end),
    lobby_case:until(fun() -> serves(B1) end),
    ?assertMatch([{<<"100">>, _}], Rooms),
    ?assertMatch([{<<"100">>, _}], peer:call(B1, lobby_store, all, [lobby_rooms])).

a_node_leaves_and_joins(Config0) ->
    Config = with_pids(Config0),
    {A, B} = {get(a, Config), get(b, Config)},
    {_, _} = call(Config),
    signal("KILL", B, Config),
    ended(B),
    B1 = node_of(b, Config),
    ok = peer:call(B1, lobby_pair, command, [leave, pair(b, Config)]),
    ?assertEqual([name(a)], peer:call(A, mnesia, system_info, [db_nodes])),
    ok = started(B1),
    lobby_case:until(fun() -> is_open(B1) end),
    ?assertEqual(lists:sort([name(a), name(b)]), lists:sort(peer:call(A, mnesia, system_info, [running_db_nodes]))),
    ?assertEqual(peer:call(A, lobby_store, all, [lobby_rooms]), peer:call(B1, lobby_store, all, [lobby_rooms])).

%% The node that served is lost for good. An operator decides to continue with the other node's data.
without_the_other_node(Config0) ->
    Config = with_pids(Config0),
    {A, B} = {get(a, Config), get(b, Config)},
    {_, _} = call(Config),
    timer:sleep(4000),
    signal("KILL", B, Config),
    ended(B),
    signal("KILL", A, Config),
    ended(A),
    lease(b, Config),
    B1 = node_of(b, Config),
    ok = peer:call(B1, lobby_pair, command, [alone, pair(b, Config)]),
    ok = started(B1),
    lobby_case:until(fun() -> serves(B1) end),
    ?assertMatch(#{members := Members} when map_size(Members) =:= 1, room(B1)).

%%% Changes while the other node is unreachable.

durable(Peer) -> peer:call(Peer, lobby_lease, durable, []).

%% Returns the first result of `durable/1', and the milliseconds until a change on this node may be answered. A write to
%% an unreachable node returns once mnesia knows that. Mnesia checks once a second.
until_durable(Peer) ->
    Start = erlang:monotonic_time(millisecond),
    write(Peer),
    First = durable(Peer),
    _ = lobby_case:until(fun() -> durable(Peer) =:= ok end),
    {First, erlang:monotonic_time(millisecond) - Start}.

write(Peer) -> ok = peer:call(Peer, lobby_store, put, [lobby_settings, written, last]).

%% Waits until each node knows the other node's role.
settle() -> timer:sleep(500).

%% Once a write that the standby lacks is durable, the standby can't take over any more.
what_the_standby_lacks_is_not_durable(Config0) ->
    Config = [{a, A}, {b, B} | _] = with_pids_first(Config0),
    settle(),
    ?assertMatch({ok, _}, until_durable(A)),
    true = peer:call(A, erlang, disconnect_node, [name(b)]),
    ?assertMatch({{wait, _}, Passed} when Passed > 2500, until_durable(A)),
    signal("KILL", A, Config),
    lease(b, Config),
    ended(B).

%% Until a write to an unreachable node is durable, the standby may take over, so that calls needn't wait for a lost
%% node.
what_the_standby_lacks_was_not_answered(Config0) ->
    Config = [{a, A}, {b, B} | _] = with_pids_first(Config0),
    settle(),
    true = peer:call(A, erlang, disconnect_node, [name(b)]),
    write(A),
    ?assertMatch({wait, _}, durable(A)),
    signal("KILL", A, Config),
    lease(b, Config),
    lobby_case:until(fun() -> serves(B) end),
    ?assertEqual(error, peer:call(B, lobby_store, get, [lobby_settings, written])),
    ?assertMatch({ok, _}, until_durable(B)).

%% The change waits for the standby, so that a takeover doesn't undo the isolation.
a_change_waits_for_the_standby(Config) ->
    A = get(a, Config),
    {_, _} = call(Config),
    [Id] = maps:keys(maps:get(members, room(A))),
    settle(),
    true = peer:call(A, erlang, disconnect_node, [name(b)]),
    {Passed, ok} = timer:tc(fun() -> peer:call(A, people, isolate, [Id], 10000) end),
    ?assert(Passed > 2500000).

%% The standby takes over, and the gateway has no context that the standby doesn't know.
a_conference_waits_for_the_standby(Config0) ->
    Config = [{a, A}, {b, B} | _] = with_pids_first(Config0),
    settle(),
    true = peer:call(A, erlang, disconnect_node, [name(b)]),
    Phone = phone:start(sip(Config)),
    Calling = phone:invite(phone:sdp(Phone), Phone),
    ?assertEqual(none, phone:status(phone:recv(Calling, 1000))),
    signal("KILL", A, Config),
    lease(b, Config),
    lobby_case:until(fun() -> serves(B) end),
    ?assertEqual([1], gateway:contexts(lists:seq(1, 20), get(gateway, Config))),
    {_, _} = call(Config).

%% Without a standby, a change needn't wait, except for a write that was under way when the standby ended (see
%% `until_durable/1').
a_standby_that_ended_costs_nothing(Config0) ->
    Config = [{a, A}, {b, B} | _] = with_pids_first(Config0),
    settle(),
    signal("KILL", B, Config),
    ended(B),
    ?assertMatch({_, Passed} when Passed < 2500, until_durable(A)),
    B1 = started_node(b, Config),
    lobby_case:until(fun() -> is_open(B1) end),
    settle(),
    ok = peer:call(B1, init, stop, []),
    ended(B1),
    ?assertMatch({_, Passed} when Passed < 2500, until_durable(A)).

a_standby_that_hangs(Config0) ->
    Config = [{a, A}, {b, B} | _] = with_pids_first(Config0),
    settle(),
    signal("STOP", B, Config),
    ?assertMatch({{wait, _}, Passed} when Passed >= 2500, until_durable(A)),
    signal("CONT", B, Config),
    ended(B).

%% The new process knows that it may not take over without a grant.
a_standby_whose_process_is_started_again(Config0) ->
    Config = [{a, A}, {b, B} | _] = with_pids_first(Config0),
    settle(),
    true = peer:call(A, erlang, disconnect_node, [name(b)]),
    timer:sleep(2000),
    true = peer:call(B, erlang, exit, [peer:call(B, erlang, whereis, [lobby_lease]), kill]),
    _ = until_durable(A),
    signal("KILL", A, Config),
    lease(b, Config),
    ended(B).

%% The process that checks the lease doesn't wait for the file server, which other processes may keep busy.
a_busy_file_server(Config) ->
    [{a, A} | _] = with_pids_first(Config),
    settle(),
    ok = peer:call(A, sys, suspend, [file_server_2]),
    timer:sleep(?GAP + 250),
    ok = peer:call(A, sys, resume, [file_server_2]),
    ?assert(is_open(A)),
    ?assert(serves(A)).

%% The standby lacks nothing, but can't know that, so it waits for the node that served.
nobody_takes_over(Config0) ->
    Config = [{a, A}, {b, B} | _] = with_pids_first(Config0),
    settle(),
    signal("KILL", A, Config),
    ok = file:delete(file(a, lease, Config)),
    ended(B),
    lease(b, Config),
    B1 = started_node(b, Config),
    timer:sleep(1000),
    ?assertNot(is_open(B1)),
    A1 = started_node(a, Config),
    lobby_case:until(fun() -> is_open(A1) andalso serves(B1) end).

%%% Requests of a node arrive after the other node has taken over.

%% A node that hung wakes up late. A member was released and isolated again, and a copy of the first request was held
%% up.
what_a_node_that_hung_has_sent_is_stale(Config) -> is_stale(after_a_node_hung(Config)).
what_a_node_that_hung_has_sent_is_run_without_a_fence(Config) -> is_run(after_a_node_hung(Config)).

is_stale(Flows) -> lobby_case:stays(fun() -> Flows() =:= 0 end).

is_run(Flows) -> lobby_case:until(fun() -> Flows() =:= 2 end).

%% Returns a function that returns the number of flows on the gateway.
after_a_node_hung(Config0) ->
    Config = [{a, A}, {b, B} | _] = with_pids_first(Config0),
    Id = isolated(Config),
    ok = relay:copy(get(relay, Config), <<"TP{">>),
    ok = peer:call(A, people, release, [Id]),
    ?assertEqual(2, flows(A, Config)),
    ok = relay:pass(get(relay, Config)),
    ok = peer:call(A, people, isolate, [Id]),
    relay:wait_for_acknowledgements(500, get(relay, Config)),
    signal("STOP", A, Config),
    lease(b, Config),
    lobby_case:until(fun() -> serves(B) end),
    timer:sleep(?GAP),
    signal("CONT", A, Config),
    ended(A),
    after_what_was_held_up(B, Config).

%% A node that was cut off released a member, and the request was held up. The other node doesn't know of it.
what_a_node_that_was_cut_off_has_sent_is_stale(Config) -> is_stale(after_a_node_was_cut_off(Config)).
what_a_node_that_was_cut_off_has_sent_is_run_without_a_fence(Config) -> is_run(after_a_node_was_cut_off(Config)).

after_a_node_was_cut_off(Config0) ->
    Config = [{a, A}, {b, B} | _] = with_pids_first(Config0),
    Id = isolated(Config),
    settle(),
    [ok = How(get(relay, Config), <<"TP{">>) || How <- [fun relay:copy/2, fun relay:drop/2]],
    true = peer:call(A, erlang, disconnect_node, [name(b)]),
    ok = peer:cast(A, people, release, [Id]),
    lobby_case:until(fun() -> relay:copies(get(relay, Config)) > 0 end),
    signal("KILL", A, Config),
    lease(b, Config),
    lobby_case:until(fun() -> serves(B) end),
    ok = relay:pass(get(relay, Config)),
    after_what_was_held_up(B, Config).

isolated(Config) ->
    A = get(a, Config),
    _ = [call(Config) || _ <- [alice, bob]],
    lobby_case:until(fun() -> flows(A, Config) =:= 2 andalso modes(A, Config) =:= ['SendReceive', 'SendReceive'] end),
    [Id | _] = maps:keys(maps:get(members, room(A))),
    ok = peer:call(A, people, isolate, [Id]),
    ?assertEqual(0, flows(A, Config)),
    Id.

modes(Peer, Config) ->
    #{context := Context} = room(Peer),
    maps:values(gateway:modes(Context, get(gateway, Config))).

after_what_was_held_up(Peer, Config) ->
    ?assertEqual(0, flows(Peer, Config)),
    ok = relay:release(get(relay, Config)),
    fun() -> flows(Peer, Config) end.
