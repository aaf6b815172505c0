%% Tests the promise with the packets that members receive. Once a change that closes a flow is answered, no packet
%% carries the talker's speech to the listener until a change that opens the flow is requested. Meanwhile, any process
%% or gateway may fail, and any message may be lost.
-module(lobby_promise_SUITE).

-include_lib("common_test/include/ct.hrl").
-include_lib("stdlib/include/assert.hrl").

-compile([export_all]).

suite() -> [{timetrap, {seconds, 90}}].

all() ->
    [isolated_people_stay_isolated_when_they_move, isolate_and_move_at_once, a_call_fails_while_it_moves,
     a_room_fails_while_somebody_moves, a_room_fails_before_its_request_arrives, who_cannot_be_silenced_does_not_move,
     release_overrides_no_rule, rules_do_not_release_anybody, a_role_comes_before_audio, a_door, who_calls_again_stays_isolated,
     a_newcomer_whose_topology_is_refused, a_gateway_that_begins_anew_runs_nothing, a_gateway_that_hung_sends_nothing,
     a_phone_still_sends_to_a_gateway_out_of_reach, rooms_of_a_lost_gateway_spread, who_is_refused_a_seat_waits,
     the_last_one_in_a_context, a_stray_is_ended, a_lock_outlives_its_room, a_room_that_fails_is_set_aside, more_rooms_than_are_allowed_start_again,
     a_muted_caller_vanishes, a_large_room_is_closed_again, nobody_else_is_looked_at].

init_per_testcase(Case, Config) ->
    ok = application:load(lobby),
    [ok = application:set_env(lobby, Key, Value)
     || {Key, Value} <- [{sip, gateway:free_address()}, {http, gateway:free_address()} | env(Case)]],
    Config.

env(a_role_comes_before_audio) -> [{roles, [{header, <<"x-role">>, [{{127, 0, 0, 1}, 32}]}]}];
env(a_muted_caller_vanishes) -> [{silent_after, 1000}, {room_audit, 500}, {t1, 20}];
env(a_large_room_is_closed_again) -> [{room_audit, 500}];
env(_) -> [].

end_per_testcase(_, Config) ->
    ok = lobby_case:stop(),
    Config.

%%% Helpers.

run(Gateways) -> run(Gateways, #{}).

run(Gateways, Options) ->
    ok = application:set_env(lobby, gateways, [maps:merge(gateway:config(Name, G), Options) || {Name, G} <- Gateways]),
    {ok, _} = application:ensure_all_started(lobby),
    lobby_case:until(fun() -> length(lobby_gateway:serving()) =:= length(Gateways) end).

%% These functions add a member who talks, and a member who only listens.
talker(Room, Id, Role) ->
    Caller = caller:start(),
    {ok, _} = people:joins(Id, #{room => Room, role => Role, caller => Caller}),
    Caller.

listener(Room, Id, Role) ->
    Caller = caller:start(),
    {ok, _} = people:join(Room, Id, Role, caller:media(Caller), sendrecv),
    Caller.

%% Returns whether any packets arrive, and how many packets with speech arrive within this many milliseconds. Packets
%% that are already in flight don't count. On a busy machine, packets may take a while.
heard(Caller, Ms) ->
    timer:sleep(40),
    caller:reset(Caller),
    timer:sleep(Ms),
    {received(Caller, 50), caller:heard(Caller)}.

received(_, 0) -> false;
received(Caller, Tries) ->
    caller:received(Caller) > 0 orelse begin timer:sleep(20), received(Caller, Tries - 1) end.

-define(SILENT, {true, 0}).

hears(Caller) -> lobby_case:until(fun() -> caller:heard(Caller) > 3 end).

%% Returns the number of terminations on the gateway, without the sentinel.
terminations(G) ->
    length(lists:append([gateway:terminations(C, G) || C <- lists:seq(1, 40)])) - 1.

killed(Name) ->
    exit(lobby_registry:whereis_name(Name), kill).

%%% Cases.

isolated_people_stay_isolated_when_they_move(_) ->
    run([{<<"a">>, gateway:start()}]),
    _ = talker(<<"100">>, alice, <<"member">>),
    [Bob, Carol] = [listener(Room, Id, <<"member">>) || {Room, Id} <- [{<<"200">>, bob}, {<<"100">>, carol}]],
    hears(Carol),
    ok = people:isolate(alice),
    {ok, _} = people:move(alice, <<"200">>),
    ?assertEqual(?SILENT, heard(Bob, 500)),
    {ok, _} = people:move(alice, <<"100">>),
    ?assertEqual([?SILENT, ?SILENT], [heard(Caller, 500) || Caller <- [Bob, Carol]]),
    ok = people:release(alice),
    hears(Carol).

%% The isolation holds no matter which change is answered first.
isolate_and_move_at_once(_) ->
    run([{<<"a">>, gateway:start()}]),
    _ = talker(<<"100">>, alice, <<"member">>),
    Ears = [listener(Room, Id, <<"member">>) || {Room, Id} <- [{<<"200">>, bob}, {<<"100">>, carol}]],
    _ = lists:foldl(fun(N, [To, Other]) ->
        Self = self(),
        spawn(fun() -> Self ! {moved, people:move(alice, To)} end),
        case N rem 3 of 0 -> ok; Ms -> timer:sleep(Ms) end,
        ok = people:isolate(alice),
        ?assertEqual([?SILENT, ?SILENT], [heard(Caller, 60) || Caller <- Ears]),
        receive {moved, {ok, _}} -> ok after 15000 -> error(not_moved) end,
        ?assertEqual([?SILENT, ?SILENT], [heard(Caller, 60) || Caller <- Ears]),
        ok = people:release(alice),
        [Other, To]
    end, [<<"200">>, <<"100">>], lists:seq(1, 40)).

%% After the failure, the member can still be isolated, and no orphaned termination is left.
a_call_fails_while_it_moves(_) ->
    G = gateway:start(),
    run([{<<"a">>, G}]),
    _ = talker(<<"100">>, alice, <<"member">>),
    Ears = [listener(Room, Id, <<"member">>) || {Room, Id} <- [{<<"200">>, bob}, {<<"100">>, carol}]],
    _ = lists:foldl(fun(N, [To, Other]) ->
        spawn(fun() -> people:move(alice, To) end),
        wait(N),
        killed({member, alice}),
        people:start_again(alice),
        ok = people:isolate(alice),
        ?assertEqual([?SILENT, ?SILENT], [heard(Caller, 60) || Caller <- Ears]),
        ok = people:release(alice),
        ?assertEqual(3, terminations(G)),
        {ok, #{room := Room}} = lobby_member:find(alice),
        case Room of To -> [Other, To]; _ -> [To, Other] end
    end, [<<"200">>, <<"100">>], lists:seq(1, 30)).

%% Waits for up to 3 ms.
wait(N) ->
    Until = erlang:monotonic_time(microsecond) + 100 * N,
    wait_until(Until).

wait_until(Until) ->
    case erlang:monotonic_time(microsecond) < Until of true -> wait_until(Until); false -> ok end.

a_room_fails_while_somebody_moves(_) ->
    G = gateway:start(),
    run([{<<"a">>, G}]),
    _ = talker(<<"100">>, alice, <<"member">>),
    Ears = [listener(Room, Id, <<"member">>) || {Room, Id} <- [{<<"200">>, bob}, {<<"100">>, carol}]],
    _ = lists:foldl(fun(N, [To, Other]) ->
        Self = self(),
        spawn(fun() -> Self ! {moved, people:move(alice, To)} end),
        wait(N),
        killed({room, case N rem 2 of 0 -> To; 1 -> Other end}),
        ok = people:isolate(alice),
        receive {moved, {ok, _}} -> ok after 15000 -> error(not_moved) end,
        ?assertEqual([?SILENT, ?SILENT], [heard(Caller, 60) || Caller <- Ears]),
        ok = people:release(alice),
        lobby_case:until(fun() -> terminations(G) =:= 3 end),
        [Other, To]
    end, [<<"200">>, <<"100">>], lists:seq(1, 30)).

%% The first copy of an Add is lost, and the next copy is sent after the room has restarted without the newcomer.
a_room_fails_before_its_request_arrives(_) ->
    G = gateway:start(),
    Relay = relay:start(gateway:address(G), #{lose => 0.0, double => 0.0, delay => 1}),
    run([{<<"a">>, G}], #{address => relay:address(Relay), retry => 300}),
    _ = talker(<<"100">>, alice, <<"member">>),
    Carol = listener(<<"100">>, carol, <<"member">>),
    relay:drop(Relay, <<"O-A=">>),
    Bob = caller:start(),
    spawn(fun() -> people:join(<<"100">>, bob, <<"member">>, caller:media(Bob), sendrecv) end),
    lobby_case:until(fun() -> lobby_store:size(lobby_requests) =:= 1 end),
    exit(lobby_registry:whereis_name({member, bob}), kill),
    ok = lobby_store:delete(lobby_members, bob),
    killed({room, <<"100">>}),
    timer:sleep(100),
    relay:pass(Relay),
    lobby_case:until(fun() -> lobby_store:size(lobby_requests) =:= 0 andalso people:agrees(<<"100">>) end),
    ?assertEqual({false, 0}, heard(Bob, 400)),
    ?assertEqual(2, terminations(G)),
    hears(Carol).

%% Carol stays in her room until the gateway has silenced her. Members who mustn't hear her don't.
who_cannot_be_silenced_does_not_move(_) ->
    G = gateway:start(),
    Relay = relay:start(gateway:address(G), #{lose => 0.0, double => 0.0, delay => 1}),
    run([{<<"a">>, G}], #{address => relay:address(Relay)}),
    [ok = people:create(Room, lobby_rules:preset(coaching)) || Room <- [<<"100">>, <<"200">>]],
    _ = talker(<<"100">>, carol, <<"coach">>),
    [Bob, Alice] = [listener(Room, Id, Role) || {Room, Id, Role} <- [{<<"100">>, bob, <<"agent">>}, {<<"100">>, alice, <<"customer">>}]],
    hears(Bob),
    relay:refuse(Relay, [<<"MF=">>, <<"MO=IN">>]),
    Self = self(),
    spawn(fun() -> Self ! {moved, people:move(carol, <<"200">>)} end),
    %% Dave isn't added before Carol is silent.
    Dave = caller:start(),
    spawn(fun() -> Self ! {joined, people:join(<<"100">>, dave, <<"customer">>, caller:media(Dave), sendrecv)} end),
    ?assertEqual([?SILENT, {false, 0}], [heard(Caller, 300) || Caller <- [Alice, Dave]]),
    receive {moved, {ok, _}} -> error(moved) after 0 -> ok end,
    relay:pass(Relay),
    receive {joined, {ok, _}} -> ok after 15000 -> error(not_joined) end,
    ?assertEqual([?SILENT, ?SILENT], [heard(Caller, 300) || Caller <- [Alice, Dave]]),
    receive {moved, _} -> ok after 15000 -> error(not_answered) end,
    lobby_case:until(fun() -> people:agrees(<<"100">>) andalso people:agrees(<<"200">>) end),
    ?assertEqual([?SILENT, ?SILENT, ?SILENT], [heard(Caller, 300) || Caller <- [Alice, Dave, Bob]]).

%% The customer doesn't hear the coach, even after the coach was isolated and released.
release_overrides_no_rule(_) ->
    run([{<<"a">>, gateway:start()}]),
    ok = people:create(<<"100">>, lobby_rules:preset(coaching)),
    _ = talker(<<"100">>, carol, <<"coach">>),
    [Bob, Alice] = [listener(<<"100">>, Id, Role) || {Id, Role} <- [{bob, <<"agent">>}, {alice, <<"customer">>}]],
    ok = people:isolate(carol),
    ?assertEqual(?SILENT, heard(Bob, 300)),
    ok = people:release(carol),
    hears(Bob),
    ?assertEqual(?SILENT, heard(Alice, 300)).

rules_do_not_release_anybody(_) ->
    run([{<<"a">>, gateway:start()}]),
    _ = talker(<<"100">>, carol, <<"member">>),
    Bob = listener(<<"100">>, bob, <<"member">>),
    ok = people:isolate(carol),
    ok = people:set_rules(<<"100">>, []),
    ok = people:add_rules(<<"100">>, [{allow, everyone, everyone}, {allow, {member, carol}, {member, bob}}]),
    ?assertEqual(?SILENT, heard(Bob, 500)),
    ok = people:release(carol),
    hears(Bob).

%% Another controller has subtracted a member's termination. So the gateway adds the newcomer and rejects the Topology.
%% No further request reaches the gateway.
a_newcomer_whose_topology_is_refused(_) ->
    G = gateway:start(),
    Relay = relay:start(gateway:address(G), #{lose => 0.0, double => 0.0, delay => 1}),
    run([{<<"a">>, G}], #{address => relay:address(Relay), retry => 200, tries => 20}),
    ok = people:create(<<"100">>, lobby_rules:preset(coaching)),
    {ok, _} = people:join(<<"100">>, eve, <<"coach">>),
    _ = talker(<<"100">>, carol, <<"coach">>),
    #{context := Context, members := #{eve := #{termination := T}}} = people:describe(<<"100">>),
    _ = gateway:ask(io_lib:format("Context=~b{Subtract=RTP/~b}", [Context, T]), G),
    relay:drop(Relay, [<<"AV=">>, <<"=*">>]),
    {Self, Bob} = {self(), caller:start()},
    spawn(fun() -> Self ! {joined, people:join(<<"100">>, bob, <<"customer">>, caller:media(Bob), sendrecv)} end),
    lobby_case:until(fun() -> terminations(G) =:= 2 end),
    ?assertMatch({_, 0}, heard(Bob, 300)),
    relay:pass(Relay),
    receive {joined, {ok, _}} -> ok after 15000 -> error(not_joined) end,
    ?assertEqual(?SILENT, heard(Bob, 300)).

%%% Phones.

sip() -> element(2, application:get_env(lobby, sip)).

%% Starts a phone that calls with this subject and these headers, and talks as soon as its call is answered.
calls(Room, Name, Headers) ->
    Phone = phone:start(sip(), Room),
    Calling = phone:invite(phone:sdp(Phone), ["Subject: " ++ Name | Headers], Phone),
    Response = phone:recv(Calling),
    ?assertEqual(200, phone:status(Response)),
    Talking = phone:learn(Response, Calling),
    phone:ack(Talking),
    {match, [Port]} = re:run(Response, "m=audio (\\d+) ", [{capture, all_but_first, list}]),
    caller:talk(phone:media(Talking), {{127, 0, 0, 1}, list_to_integer(Port)}),
    Talking.

members(Room) ->
    #{members := Members} = people:describe(Room),
    Members.

a_role_comes_before_audio(_) ->
    run([{<<"a">>, gateway:start()}]),
    ok = people:create(<<"100">>, lobby_rules:preset(coaching)),
    Customer = listener(<<"100">>, alice, <<"customer">>),
    Agent = listener(<<"100">>, bob, <<"agent">>),
    _ = calls("100", "coach", ["X-Role: coach"]),
    hears(Agent),
    ?assertEqual(0, caller:heard(Customer)),
    ?assertMatch([#{role := <<"coach">>}], [M || M = #{call := _} <- maps:values(members(<<"100">>))]).

%% A caller who waits at the door isn't heard, and hears nobody.
a_door(_) ->
    run([{<<"a">>, gateway:start()}]),
    ok = lobby_room:create(<<"100">>, lobby_rules:preset(coaching), #{door => true}),
    _ = talker(<<"100">>, dave, <<"agent">>),
    [Alice, Bob] = [listener(<<"100">>, Id, Role) || {Id, Role} <- [{alice, <<"customer">>}, {bob, <<"agent">>}]],
    ok = lobby_member:change(dave, #{muted => true}),
    ?assertEqual(?SILENT, heard(Bob, 100)),
    Phone = calls("100", "coach", []),
    [Id] = [Id || {Id, #{waiting := true}} <- maps:to_list(members(<<"100">>))],
    ?assertEqual([?SILENT, ?SILENT], [heard(Caller, 300) || Caller <- [Alice, Bob]]),
    ?assertEqual({false, 0}, heard(phone:media(Phone), 200)),
    ok = lobby_member:change(Id, #{role => <<"coach">>, waiting => false}),
    hears(Bob),
    ?assertEqual(?SILENT, heard(Alice, 300)).

who_calls_again_stays_isolated(_) ->
    run([{<<"a">>, gateway:start()}]),
    Bob = listener(<<"100">>, bob, <<"member">>),
    Phone = calls("100", "first", []),
    hears(Bob),
    [{Id, #{identity := Identity}}] = [Member || Member = {_, #{call := _}} <- maps:to_list(members(<<"100">>))],
    ok = lobby_identity:keep_isolated(Identity, true),
    ok = people:isolate(Id),
    phone:request("BYE", "", Phone),
    lobby_case:until(fun() -> map_size(members(<<"100">>)) =:= 1 end),
    _ = calls("100", "again", []),
    ?assertEqual(?SILENT, heard(Bob, 500)),
    ok = lobby_identity:keep_isolated(Identity, false).

a_muted_caller_vanishes(_) ->
    run([{<<"a">>, gateway:start()}]),
    _ = listener(<<"100">>, bob, <<"member">>),
    Phone = phone:start(sip(), "100"),
    Calling = phone:invite(phone:sdp(Phone), Phone),
    phone:ack(phone:learn(phone:recv(Calling), Calling)),
    [Id] = [Id || {Id, #{call := _}} <- maps:to_list(members(<<"100">>))],
    ok = lobby_member:change(Id, #{muted => true}),
    phone:close(Phone),
    lobby_case:until(fun() -> not is_map_key(Id, members(<<"100">>)) end).

%%% Gateways.

%% The gateway has restarted from scratch, and the controller hasn't noticed. The first request reveals the restart, and
%% isn't run.
a_gateway_that_begins_anew_runs_nothing(_) ->
    G = gateway:start(),
    run([{<<"a">>, G}], #{audit => 5000}),
    _ = talker(<<"100">>, alice, <<"member">>),
    Bob = listener(<<"100">>, bob, <<"member">>),
    hears(Bob),
    New = gateway:restart(G, ["--first-context", "500", "--first-termination", "500"]),
    Carol = talker(<<"100">>, carol, <<"member">>),
    ok = people:isolate(carol),
    ok = people:isolate(alice),
    ?assertEqual(?SILENT, heard(Bob, 400)),
    ?assertEqual(?SILENT, heard(Carol, 100)),
    ?assertEqual(4, length(lists:append([gateway:terminations(C, New) || C <- lists:seq(500, 520)]))).

%% The gateway hangs, its conference is recreated elsewhere, and a member is isolated. When the gateway continues, all
%% its terminations are subtracted before it sends anything.
a_gateway_that_hung_sends_nothing(_) ->
    Gs = maps:from_list([{Name, gateway:start()} || Name <- [<<"a">>, <<"b">>]]),
    run(maps:to_list(Gs)),
    _ = talker(<<"100">>, alice, <<"member">>),
    Bob = listener(<<"100">>, bob, <<"member">>),
    hears(Bob),
    #{gateway := Name} = people:describe(<<"100">>),
    gateway:stop(maps:get(Name, Gs)),
    lobby_case:until(fun() -> lists:member(maps:get(gateway, people:describe(<<"100">>)), maps:keys(Gs) -- [Name]) end),
    ok = people:isolate(alice),
    ?assertEqual(?SILENT, heard(Bob, 300)),
    caller:reset(Bob),
    gateway:continue(maps:get(Name, Gs)),
    lobby_case:until(fun() -> length(lobby_gateway:serving()) =:= 2 end),
    ?assertEqual(0, caller:heard(Bob)),
    ?assertEqual(?SILENT, heard(Bob, 300)).

started(Name, G, Options) ->
    {ok, #{gateways := [Whole]}} = lobby_config:check([{gateways, [maps:merge(gateway:config(Name, G), Options)]}]),
    {ok, _} = supervisor:start_child(lobby_gateway_sup, #{id => Name, start => {lobby_gateway, start_link, [Whole]}}).

%% The controller considers the gateway lost, but the gateway continues to mix. For a while, Alice's phone doesn't learn
%% of the other gateway.
a_phone_still_sends_to_a_gateway_out_of_reach(_) ->
    G = gateway:start(),
    Relay = relay:start(gateway:address(G), #{lose => 0.0, double => 0.0, delay => 1}),
    run([{<<"a">>, G}], #{address => relay:address(Relay)}),
    _ = talker(<<"100">>, alice, <<"member">>),
    Bob = listener(<<"100">>, bob, <<"member">>),
    hears(Bob),
    _ = started(<<"b">>, gateway:start(), #{}),
    Alice = lobby_registry:whereis_name({member, alice}),
    true = erlang:suspend_process(Alice),
    relay:drop(Relay, <<"/1">>),
    lobby_case:until(fun() -> maps:get(gateway, people:describe(<<"100">>)) =:= <<"b">> end),
    Self = self(),
    spawn(fun() -> Self ! {isolated, people:isolate(bob)} end),
    caller:reset(Bob),
    hears(Bob),
    receive {isolated, _} -> error(answered) after 300 -> ok end,
    true = erlang:resume_process(Alice),
    receive {isolated, ok} -> ok after 15000 -> error(not_answered) end,
    %% The lost gateway has played the packets that Alice's phone had sent to it.
    caller:reset(Bob),
    timer:sleep(60),
    ?assertEqual(0, caller:heard(Bob)),
    ?assertEqual(?SILENT, heard(Bob, 300)).

%% Three rooms of 26 members see the same free seats. No member's call ends.
rooms_of_a_lost_gateway_spread(_) ->
    [A, B, C] = [gateway:start() || _ <- [1, 2, 3]],
    run([{<<"a">>, A}]),
    [{ok, _} = people:join(Room, {Room, N}, <<"member">>) || Room <- [<<"1">>, <<"2">>, <<"3">>], N <- lists:seq(1, 26)],
    [started(Name, G, #{terminations => Seats + 1}) || {Name, G, Seats} <- [{<<"b">>, B, 59}, {<<"c">>, C, 58}]],
    lobby_case:until(fun() -> length(lobby_gateway:serving()) =:= 3 end),
    gateway:kill(A),
    lobby_case:until(fun() -> lists:all(fun(Room) ->
        maps:get(gateway, people:describe(Room)) =/= <<"a">> andalso people:agrees(Room)
    end, [<<"1">>, <<"2">>, <<"3">>]) end),
    ?assertEqual([26, 26, 26], [length([T || #{termination := T} <- maps:values(members(Room))]) || Room <- [<<"1">>, <<"2">>, <<"3">>]]),
    ?assertEqual([<<"b">>, <<"c">>], lists:usort([maps:get(gateway, people:describe(Room)) || Room <- [<<"1">>, <<"2">>, <<"3">>]])).

%% The gateway has fewer seats than the controller assumes. The room moves to another gateway, together with the
%% newcomer.
who_is_refused_a_seat_waits(_) ->
    run([{<<"a">>, gateway:start()}]),
    [{ok, _} = people:join(Room, {Room, N}, <<"member">>)
     || {Room, Number} <- [{<<"1">>, 64}, {<<"2">>, 15}], N <- lists:seq(1, Number)],
    Self = self(),
    spawn(fun() -> Self ! {joined, people:join(<<"2">>, bob, <<"member">>)} end),
    receive {joined, Early} -> error(Early) after 500 -> ok end,
    _ = started(<<"b">>, gateway:start(), #{}),
    receive {joined, {ok, _}} -> ok after 15000 -> error(not_joined) end,
    lobby_case:until(fun() -> people:agrees(<<"1">>) andalso people:agrees(<<"2">>) end),
    ?assertEqual([{<<"a">>, 64}, {<<"b">>, 16}],
                 [{maps:get(gateway, people:describe(Room)), map_size(members(Room))} || Room <- [<<"1">>, <<"2">>]]).

%% Another controller has subtracted the other members' terminations. Our controller understands the reply to the next
%% audit.
the_last_one_in_a_context(_) ->
    G = gateway:start(),
    run([{<<"a">>, G}]),
    [{ok, _} = people:join(<<"100">>, Id, <<"member">>) || Id <- [alice, bob, carol]],
    #{context := Context, members := Members} = people:describe(<<"100">>),
    [gateway:ask(io_lib:format("Context=~b{Subtract=RTP/~b}", [Context, T]), G)
     || Id <- [alice, bob], T <- [maps:get(termination, maps:get(Id, Members))]],
    _ = people:audit(<<"100">>),
    lobby_case:until(fun() -> people:agrees(<<"100">>) andalso length(gateway:terminations(Context, G)) =:= 3 end),
    ?assertEqual([], [N || {{lobby_gateway_losses_total, _}, N} <- lobby_events:counts()]).

%% Another controller has added a termination, which would hear everyone.
a_stray_is_ended(_) ->
    G = gateway:start(),
    run([{<<"a">>, G}]),
    _ = talker(<<"100">>, alice, <<"member">>),
    Bob = listener(<<"100">>, bob, <<"member">>),
    hears(Bob),
    #{context := Context} = people:describe(<<"100">>),
    Media = "Media{LocalControl{Mode=SendReceive},Remote{\nv=0\nc=IN IP4 127.0.0.1\nm=audio 9 RTP/AVP 0\n}}",
    _ = gateway:ask(io_lib:format("Context=~b{Add=${~s}}", [Context, Media]), G),
    ?assertEqual(3, terminations(G)),
    _ = people:audit(<<"100">>),
    lobby_case:until(fun() -> terminations(G) =:= 2 end),
    hears(Bob).

%% A lock survives a restart of the room's process.
a_lock_outlives_its_room(_) ->
    run([{<<"a">>, gateway:start()}]),
    {ok, _} = people:join(<<"100">>, alice, <<"member">>),
    ok = lobby_room:call(<<"100">>, {settings, #{locked => true}}),
    Room = lobby_registry:whereis_name({room, <<"100">>}),
    killed({room, <<"100">>}),
    lobby_case:until(fun() -> not lists:member(lobby_registry:whereis_name({room, <<"100">>}), [undefined, Room]) end),
    ?assertEqual({error, room_locked}, people:join(<<"100">>, bob, <<"member">>)),
    ok = lobby_room:call(<<"100">>, {settings, #{locked => false}}),
    {ok, _} = people:join(<<"100">>, carol, <<"member">>).

%% The first stored room can't be read, and the store has more rooms than the limit. All other stored rooms stay.
more_rooms_than_are_allowed_start_again(_) ->
    G = gateway:start(),
    run([{<<"a">>, G}]),
    _ = talker(<<"100">>, alice, <<"member">>),
    Bob = listener(<<"100">>, bob, <<"member">>),
    ok = people:isolate(alice),
    Kept = #{rules => [], settings => #{kept => true}, gateway => none, stale => #{}},
    Names = [integer_to_binary(N) || N <- lists:seq(1000, 11000)],
    [ok = lobby_store:put(lobby_rooms, Name, Kept) || Name <- Names],
    ok = lobby_store:put(lobby_rooms, <<"0">>, nonsense),
    exit(whereis(lobby_room_sup), kill),
    lobby_case:until(fun() -> is_running(<<"100">>) andalso length(lobby_registry:names(room)) >= length(Names) end, 60000),
    lobby_case:until(fun() -> not lobby_room:exists(<<"0">>) end),
    ?assertEqual([], [Name || Name <- Names, not is_running(Name)]),
    ?assertEqual({error, too_many_rooms}, people:create(<<"new">>, [])),
    caller:reset(Bob),
    timer:sleep(100),
    ?assertEqual(0, caller:heard(Bob)),
    ok = people:release(alice),
    lobby_case:until(fun() -> caller:heard(Bob) > 0 end).

is_running(Room) -> is_pid(lobby_registry:whereis_name({room, Room})).

%% The room's state can't be read. The calls of its members end, and other rooms continue.
a_room_that_fails_is_set_aside(_) ->
    G = gateway:start(),
    run([{<<"a">>, G}]),
    _ = talker(<<"100">>, alice, <<"member">>),
    Bob = listener(<<"100">>, bob, <<"member">>),
    {ok, _} = people:join(<<"bad">>, carol, <<"member">>),
    ok = lobby_store:put(lobby_rooms, <<"bad">>, nonsense),
    killed({room, <<"bad">>}),
    lobby_case:until(fun() -> not lobby_room:exists(<<"bad">>) end),
    lobby_case:until(fun() -> lobby_member:find(carol) =:= error end),
    lobby_case:until(fun() -> terminations(G) =:= 2 end),
    hears(Bob),
    ?assertEqual(1, lists:sum([N || {{lobby_set_aside_total, _}, N} <- lobby_events:counts()])).

%% The topology of a large room can't be audited, so the room closes the forbidden flows again.
a_large_room_is_closed_again(_) ->
    G = gateway:start(),
    run([{<<"a">>, G}]),
    _ = talker(<<"hall">>, alice, <<"coach">>),
    Bob = listener(<<"hall">>, bob, <<"customer">>),
    [{ok, _} = people:join(<<"hall">>, N, <<"agent">>) || N <- lists:seq(1, 40)],
    ok = people:set_rules(<<"hall">>, lobby_rules:preset(coaching)),
    #{context := Context} = people:describe(<<"hall">>),
    [begin
         gateway:ask(io_lib:format("Context=~b{Topology{*,*,Bothway},AuditValue=*{Audit{}}}", [Context]), G),
         hears(Bob),
         timer:sleep(1200),
         ?assertEqual(?SILENT, heard(Bob, 300))
     end || _ <- [1, 2]].

%% A change or query of one member or one room costs little more with 20,000 other members.
nobody_else_is_looked_at(_) ->
    run([{<<"a">>, gateway:start()}]),
    {ok, _} = people:join(<<"100">>, alice, <<"member">>),
    {ok, _} = people:join(<<"100">>, bob, <<"member">>),
    Steps = [{isolate, fun() -> ok = people:isolate(alice), ok = people:release(alice) end},
             {describe, fun() -> #{members := Rows} = lobby_room:call(<<"100">>, describe), lobby_call:callers([Row || {Row, _} <- Rows]) end},
             {audit, fun() -> same = people:audit(<<"100">>) end},
             {move, fun() -> {ok, _} = people:move(alice, <<"200">>), {ok, _} = people:move(alice, <<"100">>) end},
             {join, fun() -> {ok, _} = people:join(<<"100">>, carol, <<"member">>), ok = lobby_member:hang_up(carol) end},
             {metrics, fun lobby_metrics:text/0}],
    Few = [{Name, cost(Step)} || {Name, Step} <- Steps],
    Row = lobby_member:new(none, #{room => <<"300">>, role => <<"member">>, media => {{{127, 0, 0, 1}, 9}, pcmu}, direction => sendrecv,
                                   identity => <<"test">>, call => none}),
    [begin
         ok = lobby_store:put(lobby_members, N, <<"300">>, Row#{id := N}),
         ok = lobby_store:put(lobby_calls, N, #{invite => none, id => N, room => <<"300">>, source => none})
     end || N <- lists:seq(1, 20000)],
    Many = [{Name, cost(Step)} || {Name, Step} <- Steps],
    ct:pal("reductions: ~p, and with 20,000 others ~p", [Few, Many]),
    ?assertEqual([], [{Name, Before, After} || {{Name, Before}, {Name, After}} <- lists:zip(Few, Many), After > Before + Before div 2 + 4000]).

%% Returns the least number of reductions that all processes together take for a step.
cost(Step) ->
    lists:min([begin
        {Before, _} = erlang:statistics(exact_reductions),
        Step(),
        {After, _} = erlang:statistics(exact_reductions),
        After - Before
    end || _ <- lists:seq(1, 8)]).
