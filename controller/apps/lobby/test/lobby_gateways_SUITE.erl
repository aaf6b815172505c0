%% Tests rooms on real gateways.
-module(lobby_gateways_SUITE).

-include_lib("common_test/include/ct.hrl").
-include_lib("stdlib/include/assert.hrl").

-compile([export_all]).

suite() -> [{timetrap, {seconds, 60}}].

all() ->
    [the_rules_hold_on_the_gateway, a_newcomer_enters_with_his_rules, mutes_and_holds_are_modes, members_move,
     a_move_that_fails_changes_nothing, refused_media, a_refused_newcomer_disturbs_nobody,
     a_lecture_of_sixty, a_killed_gateway_is_replaced, one_that_begins_anew_is_noticed,
     one_that_begins_with_the_same_numbers_is_noticed, one_that_was_out_of_reach_is_cleaned, of_a_pair_it_is_cleaned_later,
     a_room_waits_for_a_gateway, one_with_a_journal_comes_back, one_that_comes_back_soon_is_not_missed, one_that_comes_back_soon_is_seen,
     requests_wait_for_one_with_a_journal, one_that_does_not_come_back_is_replaced, one_that_lost_its_journal_is_noticed,
     one_that_comes_back_with_less_is_corrected, another_run_takes_over,
     an_old_request_is_stale, an_old_request_is_run_without_a_fence, a_held_up_add_is_stale, a_held_up_add_is_run_without_a_fence,
     another_run_goes_on_behind_a_fence, one_that_is_fenced_off_says_so, numbers_only_rise,
     rooms_that_are_gone_end_when_a_gateway_returns,
     one_that_began_anew_between_two_runs, processes_fail, a_room_fails_in_the_middle_of_a_request,
     somebody_else_changes_the_topology, lost_and_doubled_datagrams, one_is_drained, one_that_is_drained_fails,
     what_has_no_room_elsewhere_stays, anything_for_some_seconds].

init_per_testcase(_, Config) ->
    ok = application:load(lobby),
    [ok = application:set_env(lobby, Key, gateway:free_address()) || Key <- [sip, http]],
    Config.

end_per_testcase(_, Config) ->
    ok = lobby_case:stop(),
    Config.

%%% Helpers.

run(Gateways) ->
    run(Gateways, #{}).

run(Gateways, Options) ->
    Configs = [maps:merge(gateway:config(Name, G), Options) || {Name, G} <- Gateways],
    ok = application:set_env(lobby, gateways, Configs),
    {ok, _} = application:ensure_all_started(lobby),
    lobby_case:until(fun() -> length(lobby_gateway:serving()) =:= length(Gateways) end).

media(Port) -> {{{127, 0, 0, 1}, Port}, pcmu}.

join(Room, Id, Role) ->
    {ok, Local} = people:join(Room, Id, Role, media(40000), sendrecv),
    Local.

%% Returns the members of a room by their terminations.
ids(#{members := Members}) ->
    maps:from_list([{T, Id} || {Id, #{termination := T}} <- maps:to_list(Members)]).

%% Returns the open flows of a room, as the gateway reports them.
heard(Room, Gateways) ->
    About = #{gateway := Name, context := Context} = people:describe(Room),
    G = maps:get(Name, Gateways),
    Ids = ids(About),
    ?assertEqual(lists:sort(maps:keys(Ids)), gateway:terminations(Context, G)),
    lists:sort([{maps:get(A, Ids), maps:get(B, Ids)} || {A, B} <- gateway:topology(Context, G)]).

%%% Cases.

the_rules_hold_on_the_gateway(_) ->
    G = gateway:start(),
    run([{<<"a">>, G}]),
    ok = people:create(<<"100">>, lobby_rules:preset(coaching)),
    [join(<<"100">>, Id, Role) || {Id, Role} <- [{alice, <<"customer">>}, {bob, <<"agent">>}, {carol, <<"coach">>}]],
    Gs = #{<<"a">> => G},
    ?assertEqual([{alice, bob}, {alice, carol}, {bob, alice}, {bob, carol}, {carol, bob}], heard(<<"100">>, Gs)),
    ok = people:isolate(bob),
    ?assertEqual([{alice, carol}], heard(<<"100">>, Gs)),
    ok = people:release(bob),
    ?assertEqual([{alice, bob}, {alice, carol}, {bob, alice}, {bob, carol}, {carol, bob}], heard(<<"100">>, Gs)),
    ok = people:leave(carol),
    ?assertEqual([{alice, bob}, {bob, alice}], heard(<<"100">>, Gs)),
    #{context := Context} = people:describe(<<"100">>),
    [people:leave(Id) || Id <- [alice, bob]],
    ?assertEqual([], gateway:contexts([Context], G)).

%% A newcomer never hears, even for one packet, a talker whom the rules keep from him. The talker never pauses, and
%% datagrams are so slow that the gateway sends packets between any two requests, so a leak would be heard.
a_newcomer_enters_with_his_rules(_) ->
    G = gateway:start(),
    Relay = relay:start(gateway:address(G), #{lose => 0.0, double => 0.0, delay => 60}),
    run([{<<"a">>, G}], #{address => relay:address(Relay)}),
    ok = people:create(<<"100">>, [{deny, {role, <<"customer">>}, {role, <<"coach">>}}]),
    Talker = caller:start(),
    {ok, {To, _}} = people:join(<<"100">>, talker, <<"customer">>, caller:media(Talker), sendrecv),
    caller:talk(Talker, To),
    Agent = caller:start(),
    {ok, _} = people:join(<<"100">>, agent, <<"agent">>, caller:media(Agent), sendrecv),
    lobby_case:until(fun() -> caller:heard(Agent) > 10 end),
    [begin
         Coach = caller:start(),
         {ok, _} = people:join(<<"100">>, {coach, N}, <<"coach">>, caller:media(Coach), sendrecv),
         lobby_case:until(fun() -> caller:received(Coach) > 5 end),
         ?assertEqual(0, caller:heard(Coach)),
         ok = people:leave({coach, N})
     end || N <- lists:seq(1, 20)].

mutes_and_holds_are_modes(_) ->
    G = gateway:start(),
    run([{<<"a">>, G}]),
    [join(<<"100">>, Id, <<"member">>) || Id <- [alice, bob]],
    Mode = fun(Id) ->
        #{context := Context, members := #{Id := #{termination := T}}} = people:describe(<<"100">>),
        maps:get(T, gateway:modes(Context, G))
    end,
    ?assertEqual('SendReceive', Mode(alice)),
    [begin {ok, _} = people:update(alice, Change), ?assertEqual(Wanted, Mode(alice)) end
     || {Change, Wanted} <- [{#{muted => true}, 'SendOnly'}, {#{direction => sendonly}, 'Inactive'}, {#{muted => false}, 'Inactive'},
                             {#{direction => recvonly}, 'SendOnly'}, {#{direction => sendrecv}, 'SendReceive'}]],
    ?assertEqual('SendReceive', Mode(bob)),
    ?assertEqual({error, no_member}, people:update(nobody, #{muted => true})).

members_move(_) ->
    G = gateway:start(),
    run([{<<"a">>, G}]),
    Gs = #{<<"a">> => G},
    ok = people:create(<<"break">>, [{deny, {role, <<"guest">>}, everyone}]),
    Before = [join(<<"main">>, Id, <<"guest">>) || Id <- [alice, bob, carol]],
    ?assertEqual({ok, lists:nth(1, Before)}, people:move(alice, <<"break">>)),
    ?assertEqual({ok, lists:nth(2, Before)}, people:move(bob, <<"break">>)),
    ?assertEqual([], heard(<<"break">>, Gs)),
    {ok, _} = people:move(carol, <<"break">>),
    ok = people:set_rules(<<"break">>, []),
    ?assertEqual(6, length(heard(<<"break">>, Gs))),
    ?assertEqual([<<"break">>], lobby_room:names()),
    ?assertEqual({error, no_member}, people:move(dave, <<"main">>)).

%% After a failed move, Alice and Carol are still isolated, each in the old room.
a_move_that_fails_changes_nothing(_) ->
    G = gateway:start(),
    run([{<<"a">>, G}]),
    [join(<<"full">>, N, <<"member">>) || N <- lists:seq(1, 64)],
    [join(Room, Id, <<"guest">>) || {Room, Id} <- [{<<"desk">>, alice}, {<<"desk">>, bob}, {<<"solo">>, carol}]],
    [ok = people:isolate(Id) || Id <- [alice, carol]],
    [?assertEqual({error, room_full}, people:move(Id, <<"full">>)) || Id <- [alice, carol]],
    join(<<"solo">>, dave, <<"guest">>),
    [?assertEqual([], heard(Room, #{<<"a">> => G})) || Room <- [<<"desk">>, <<"solo">>]],
    ?assertEqual([<<"desk">>, <<"full">>, <<"solo">>], lobby_room:names()).

%% The gateway accepts a Remote with the address 0.0.0.0, but not with port 0.
refused_media(_) ->
    G = gateway:start(),
    run([{<<"a">>, G}]),
    Bad = {{{127, 0, 0, 1}, 0}, pcmu},
    ?assertEqual({error, {refused, 515}}, people:join(<<"100">>, x, <<"member">>, Bad, sendrecv)),
    lobby_case:until(fun() -> lobby_room:names() =:= [] end),
    Local = join(<<"100">>, alice, <<"member">>),
    ?assertEqual({error, {refused, 515}}, people:update(alice, #{media => Bad})),
    ?assertEqual({ok, Local}, people:update(alice, #{muted => false})).

%% The gateway rejects the newcomer's Add, and also the triples that name the newcomer.
a_refused_newcomer_disturbs_nobody(_) ->
    G = gateway:start(),
    run([{<<"a">>, G}]),
    ok = people:create(<<"100">>, lobby_rules:preset(coaching)),
    [join(<<"100">>, Id, Role) || {Id, Role} <- [{alice, <<"customer">>}, {bob, <<"agent">>}]],
    Before = people:describe(<<"100">>),
    Bad = {{{127, 0, 0, 1}, 0}, pcmu},
    ?assertEqual({error, {refused, 515}}, people:join(<<"100">>, x, <<"coach">>, Bad, sendrecv)),
    ?assertEqual(Before, people:describe(<<"100">>)),
    ?assertEqual([{alice, bob}, {bob, alice}], heard(<<"100">>, #{<<"a">> => G})).

%% With sixty members, the topology takes several requests, and can't be audited.
a_lecture_of_sixty(_) ->
    G = gateway:start(["--first-termination", "4000000000"]),
    run([{<<"a">>, G}]),
    ok = people:create(<<"hall">>, []),
    [join(<<"hall">>, N, case N rem 2 of 0 -> <<"even">>; 1 -> <<"odd">> end) || N <- lists:seq(1, 60)],
    ok = people:set_rules(<<"hall">>, [{deny, {role, <<"even">>}, {role, <<"odd">>}}]),
    ?assertEqual(unknown, people:audit(<<"hall">>)),
    [ok = people:leave(N) || N <- lists:seq(21, 60)],
    Heard = heard(<<"hall">>, #{<<"a">> => G}),
    ?assertEqual(lists:sort([{A, B} || A <- lists:seq(1, 20), B <- lists:seq(1, 20), A =/= B, not (A rem 2 =:= 0 andalso B rem 2 =:= 1)]), Heard).

a_killed_gateway_is_replaced(_) ->
    A = gateway:start(),
    B = gateway:start(),
    Gs = #{<<"a">> => A, <<"b">> => B},
    %% The tries take 20 s in all, so only ICMP from the gateway's host reveals the loss in time.
    run(maps:to_list(Gs), #{retry => 1000, tries => 20}),
    ok = people:create(<<"100">>, [{deny, everyone, {member, 3}}]),
    [join(<<"100">>, N, <<"member">>) || N <- lists:seq(1, 30)],
    #{gateway := First} = people:describe(<<"100">>),
    gateway:kill(maps:get(First, Gs)),
    Start = erlang:monotonic_time(millisecond),
    [receive {moved, N, _} -> ok after 15000 -> error(not_moved) end || N <- lists:seq(1, 30)],
    Took = erlang:monotonic_time(millisecond) - Start,
    ct:pal("made again ~b ms after the kill", [Took]),
    ?assert(Took < 15000),
    #{gateway := Second} = people:describe(<<"100">>),
    ?assertNotEqual(First, Second),
    [ok = people:leave(N) || N <- lists:seq(11, 30)],
    ?assertEqual(lists:sort([{X, Y} || X <- lists:seq(1, 10), Y <- lists:seq(1, 10), X =/= Y, Y =/= 3]), heard(<<"100">>, Gs)).

one_that_begins_anew_is_noticed(_) ->
    begun_anew(["--first-termination", "1000", "--first-context", "1000"], ["--first-termination", "2000", "--first-context", "2000"]).

%% The restarted gateway has a context and terminations with the same names, which another controller created.
one_that_begins_with_the_same_numbers_is_noticed(_) ->
    begun_anew([], []).

begun_anew(First, Second) ->
    G = gateway:start(First),
    run([{<<"a">>, G}]),
    ok = people:create(<<"100">>, people:isolation(bob)),
    Locals = [join(<<"100">>, Id, <<"member">>) || Id <- [alice, bob, carol]],
    [{Before, _}] = lobby_gateway:serving(),
    G1 = gateway:restart(G, Second),
    Other = "Add=${Media{LocalControl{Mode=Inactive},Remote{\nv=0\nc=IN IP4 127.0.0.1\nm=audio 9 RTP/AVP 0\n}}}",
    [gateway:ask("Context=${" ++ Other ++ "," ++ Other ++ "," ++ Other ++ "}", G1) || _ <- [1, 2]],
    Took = lobby_case:until(fun() -> case lobby_gateway:serving() of [_] -> made_again(Locals, G1); [] -> false end end),
    ct:pal("made again ~b ms after the others", [Took]),
    ?assertNot(lobby_gateway:reserve(Before, <<"200">>, [dave])),
    ?assertEqual([{alice, carol}, {carol, alice}], heard(<<"100">>, #{<<"a">> => G1})).

%% Returns whether the members are in one context, without other terminations, and all of them talk and hear.
made_again(Locals, G) ->
    #{context := Context, members := Members} = people:describe(<<"100">>),
    Context =/= new andalso length(gateway:terminations(Context, G)) =:= length(Locals)
        andalso lists:sort([T || #{termination := T} <- maps:values(Members)]) =:= gateway:terminations(Context, G)
        andalso lists:all(fun(Mode) -> Mode =:= 'SendReceive' end, maps:values(gateway:modes(Context, G))).

one_that_was_out_of_reach_is_cleaned(_) ->
    A = gateway:start(),
    B = gateway:start(["--first-context", "500"]),
    Gs = #{<<"a">> => A, <<"b">> => B},
    run(maps:to_list(Gs)),
    [join(<<"100">>, Id, <<"member">>) || Id <- [alice, bob]],
    #{gateway := First, context := Context} = people:describe(<<"100">>),
    Stopped = maps:get(First, Gs),
    %% The other gateway has fewer free seats, so that a new room's Add is under way to the gateway that stops.
    Others = [H || {H, _} <- lobby_gateway:serving(), lobby_gateway:name(H) =/= First],
    [true = lobby_gateway:reserve(H, <<"other">>, [x, y, z]) || H <- Others],
    ?assertEqual([Context], gateway:contexts([Context], Stopped)),
    gateway:stop(Stopped),
    spawn(fun() -> people:join(<<"200">>, carol, <<"member">>, media(40000), sendrecv) end),
    lobby_case:until(fun() -> maps:get(gateway, people:describe(<<"100">>)) =/= First end),
    gateway:continue(Stopped),
    lobby_case:until(fun() -> length(lobby_gateway:serving()) =:= 2 end),
    ?assertEqual([sentinel(Stopped)], gateway:contexts(lists:seq(1, 60) ++ lists:seq(500, 560), Stopped)),
    ?assertEqual([{alice, bob}, {bob, alice}], heard(<<"100">>, Gs)).

%% This node of a pair may have been cut off, so it subtracts nothing until it would have learned of that.
of_a_pair_it_is_cleaned_later(_) ->
    Gs = maps:from_list([{Name, gateway:start()} || Name <- [<<"a">>, <<"b">>]]),
    ok = persistent_term:put(lobby_lease, {atomics:new(1, []), 1 bsl 60}),
    run(maps:to_list(Gs)),
    [join(<<"100">>, Id, <<"member">>) || Id <- [alice, bob]],
    #{gateway := First, context := Context} = people:describe(<<"100">>),
    Stopped = maps:get(First, Gs),
    gateway:stop(Stopped),
    lobby_case:until(fun() -> maps:get(gateway, people:describe(<<"100">>)) =/= First end),
    gateway:continue(Stopped),
    timer:sleep(500),
    ?assertEqual([Context], gateway:contexts([Context], Stopped)),
    lobby_case:until(fun() -> gateway:contexts([Context], Stopped) =:= [] end),
    lobby_case:until(fun() -> length(lobby_gateway:serving()) =:= 2 end),
    true = persistent_term:erase(lobby_lease).

a_room_waits_for_a_gateway(_) ->
    G = gateway:start(),
    run([{<<"a">>, G}]),
    [join(<<"100">>, Id, <<"member">>) || Id <- [alice, bob]],
    gateway:stop(G),
    lobby_case:until(fun() -> maps:get(gateway, people:describe(<<"100">>)) =:= none end),
    ?assertEqual({error, no_room}, people:join(<<"100">>, x, <<"member">>, media(40000), sendrecv)),
    %% The gateway may still mix, so the change isn't answered yet.
    ?assertNot(people:agrees(<<"100">>)),
    gateway:continue(G),
    lobby_case:until(fun() -> maps:get(gateway, people:describe(<<"100">>)) =:= <<"a">> end),
    lobby_case:until(fun() -> people:agrees(<<"100">>) end),
    ?assertEqual([{alice, bob}, {bob, alice}], heard(<<"100">>, #{<<"a">> => G})).

%% Ends a member's call without notifying any process.
ended(Id) ->
    exit(lobby_registry:whereis_name({member, Id}), kill),
    ok = lobby_store:delete(lobby_members, Id).

%%% Gateways with a journal.

journal(Config) ->
    filename:join(?config(priv_dir, Config), "journal" ++ integer_to_list(erlang:unique_integer([positive])) ++ ".txt").

%% Creates a room with three members on a gateway with a journal, and isolates one of them. This process acts for all
%% three.
journaled(Returns, Others, Config) ->
    Journal = ["--journal", journal(Config)],
    G = gateway:start(Journal),
    run([{<<"a">>, G}], #{returns => Returns}),
    ok = people:create(<<"100">>, people:isolation(bob)),
    [join(<<"100">>, Id, <<"member">>) || Id <- [alice, bob, carol]],
    [ok = supervisor_starts(gateway:config(Name, Other)) || {Name, Other} <- Others],
    lobby_case:until(fun() -> length(lobby_gateway:serving()) =:= 1 + length(Others) end),
    ok = lobby_events:subscribe({<<"token">>, viewer}),
    {G, Journal}.

%% Adds a second gateway later, so that the room is on the first gateway.
supervisor_starts(Config = #{name := Name}) ->
    {ok, #{gateways := [Whole]}} = lobby_config:check([{gateways, [Config]}]),
    {ok, _} = supervisor:start_child(lobby_gateway_sup, #{id => Name, start => {lobby_gateway, start_link, [Whole]}}),
    ok.

event(Event) ->
    receive {lobby_event, Event} -> ok after 15000 -> error({no_event, Event}) end.

count(Counter) ->
    lists:sum([N || {{C, _}, N} <- lobby_events:counts(), C =:= Counter]).

counts() ->
    [count(C) || C <- [lobby_gateway_losses_total, lobby_gateway_returns_total, lobby_conferences_kept_total,
                       lobby_conferences_made_again_total, lobby_topologies_repaired_total]].

%% The controller has to change nothing, and no phone gets a re-INVITE.
one_with_a_journal_comes_back(Config) ->
    {G, Journal} = journaled(5000, [], Config),
    Gs = #{<<"a">> => G},
    Before = people:describe(<<"100">>),
    [{Handle, _}] = lobby_gateway:serving(),
    ?assertEqual([0, 0, 0, 0, 0], counts()),
    lists:foldl(fun(N, Old) ->
        gateway:kill(Old),
        event({gateway, <<"a">>, away}),
        ?assertEqual([], lobby_gateway:serving()),
        New = gateway:restart(Old, Journal),
        event({gateway, <<"a">>, returned}),
        event({gateway, <<"a">>, serving}),
        lobby_case:until(fun() -> count(lobby_conferences_kept_total) =:= N end),
        ?assertEqual([0, N, N, 0, 0], counts()),
        ?assertMatch([{Handle, _}], lobby_gateway:serving()),
        ?assertEqual(Before, people:describe(<<"100">>)),
        ?assertEqual([{alice, carol}, {carol, alice}], heard(<<"100">>, Gs)),
        ?assertEqual(2, length(gateway:contexts(lists:seq(1, 60), G))),
        New
    end, G, [1, 2]),
    receive {moved, Id, Local} -> error({moved, Id, Local}) after 0 -> ok end.

%% The gateway is back soon. Calls continue, whether or not the controller noticed that it was gone.
one_that_comes_back_soon_is_not_missed(Config) ->
    {G, Journal} = journaled(5000, [], Config),
    Before = people:describe(<<"100">>),
    lists:foldl(fun(_, Old) ->
        New = gateway:restart(Old, Journal),
        timer:sleep(rand:uniform(300)),
        ok = people:add_rules(<<"100">>, people:isolation(bob)),
        New
    end, G, lists:seq(1, 10)),
    lobby_case:until(fun() -> length(lobby_gateway:serving()) =:= 1 end),
    ?assertEqual(Before, people:describe(<<"100">>)),
    ?assertEqual([{alice, carol}, {carol, alice}], heard(<<"100">>, #{<<"a">> => G})),
    ?assertEqual(0, count(lobby_gateway_losses_total)).

%% The gateway's packet counts begin at 0 again, which reveals the restart. The controller counts it once for the
%% conference, whether or not it noticed that the gateway was gone.
one_that_comes_back_soon_is_seen(Config) ->
    ok = application:set_env(lobby, room_audit, 500),
    {G, Journal} = journaled(5000, [], Config),
    Caller = caller:start(),
    {ok, {To, _}} = people:join(<<"100">>, talker, <<"member">>, caller:media(Caller), sendrecv),
    caller:talk(Caller, To),
    lists:foldl(fun(N, Old) ->
        timer:sleep(1500),
        ?assertEqual(N - 1, count(lobby_conferences_kept_total)),
        New = gateway:restart(Old, Journal),
        lobby_case:until(fun() -> count(lobby_conferences_kept_total) =:= N end),
        New
    end, G, [1, 2, 3]),
    timer:sleep(1500),
    ?assertEqual(3, count(lobby_conferences_kept_total)),
    ?assertEqual(0, count(lobby_gateway_losses_total)).

%% Each request is run once, both requests that were sent before the gateway ended and requests that arrive while the
%% controller waits for it.
requests_wait_for_one_with_a_journal(Config) ->
    {G, Journal} = journaled(5000, [], Config),
    Self = self(),
    Join = fun(Room, Id) -> spawn(fun() -> Self ! {Id, people:join(Room, Id, <<"member">>, media(40000), sendrecv)} end) end,
    gateway:stop(G),
    Join(<<"100">>, dave),
    timer:sleep(50),
    gateway:kill(G),
    event({gateway, <<"a">>, away}),
    spawn(fun() -> ok = people:add_rules(<<"100">>, people:isolation(carol)), Self ! isolated end),
    receive {dave, Early} -> error(Early) after 300 -> ok end,
    _ = gateway:restart(G, Journal),
    receive {dave, {ok, _}} -> ok after 10000 -> error(no_answer) end,
    receive isolated -> ok after 10000 -> error(no_answer) end,
    ?assertEqual([{alice, dave}, {dave, alice}], heard(<<"100">>, #{<<"a">> => G})),
    ?assertEqual([0, 1], lists:sublist(counts(), 2)),
    [{_, Load}] = lobby_gateway:serving(),
    ?assertMatch(#{terminations := 5, contexts := 2}, Load).

%% If the gateway comes back later, all its terminations are subtracted.
one_that_does_not_come_back_is_replaced(Config) ->
    B = gateway:start(["--first-context", "500"]),
    {G, Journal} = journaled(300, [{<<"b">>, B}], Config),
    Gs = #{<<"a">> => G, <<"b">> => B},
    gateway:kill(G),
    Start = erlang:monotonic_time(millisecond),
    event({gateway, <<"a">>, away}),
    event({gateway, <<"a">>, lost}),
    [receive {moved, Id, _} -> ok after 15000 -> error(not_moved) end || Id <- [alice, bob, carol]],
    ct:pal("made again ~b ms after the kill", [erlang:monotonic_time(millisecond) - Start]),
    ?assertEqual([{alice, carol}, {carol, alice}], heard(<<"100">>, Gs)),
    ?assertEqual([1, 0, 0, 1, 0], counts()),
    _ = gateway:restart(G, Journal),
    event({gateway, <<"a">>, serving}),
    ?assertEqual([sentinel(G)], gateway:contexts(lists:seq(1, 60), G)),
    ?assertEqual([{alice, carol}, {carol, alice}], heard(<<"100">>, Gs)).

%% Another controller has created terminations with the same numbers, which our requests must not change. A request that
%% was unanswered when the gateway ended is repeated only once the gateway is known to be the same.
one_that_lost_its_journal_is_noticed(Config) ->
    {G, _} = journaled(5000, [], Config),
    #{context := Context} = people:describe(<<"100">>),
    gateway:stop(G),
    Ours = spawn(fun() -> people:add_rules(<<"100">>, people:isolation(carol)) end),
    timer:sleep(50),
    gateway:kill(G),
    event({gateway, <<"a">>, away}),
    G1 = gateway:restart(G, ["--journal", journal(Config)]),
    Other = "Add=${Media{LocalControl{Mode=Inactive},Remote{\nv=0\nc=IN IP4 127.0.0.1\nm=audio 9 RTP/AVP 0\n}}}",
    gateway:ask("Context=${" ++ Other ++ "}", G1),
    gateway:ask("Context=${" ++ Other ++ "," ++ Other ++ "," ++ Other ++ "}", G1),
    event({gateway, <<"a">>, lost}),
    event({gateway, <<"a">>, serving}),
    lobby_case:until(fun() -> not is_process_alive(Ours) andalso all_held(<<"100">>) end),
    ?assertEqual([], heard(<<"100">>, #{<<"a">> => G1})),
    ?assertEqual([1, 0, 0, 1, 0], counts()),
    ?assertEqual({2, 6}, {Context, length(gateway:topology(Context, G1))}).

%% A standby's copy of a journal may lack its end, so the gateway has forgotten the last requests.
one_that_comes_back_with_less_is_corrected(Config) ->
    {G, Journal = [_, File]} = journaled(5000, [], Config),
    {ok, Copy} = file:read_file(File),
    join(<<"100">>, dave, <<"member">>),
    ok = people:add_rules(<<"100">>, people:isolation(carol)),
    gateway:kill(G),
    event({gateway, <<"a">>, away}),
    ok = file:write_file(File, Copy),
    _ = gateway:restart(G, Journal),
    event({gateway, <<"a">>, returned}),
    lobby_case:until(fun() -> count(lobby_topologies_repaired_total) =:= 1 andalso people:agrees(<<"100">>) end),
    ?assertEqual([{alice, dave}, {dave, alice}], heard(<<"100">>, #{<<"a">> => G})),
    ?assertEqual([0, 1, 1, 0, 1], counts()),
    ?assertEqual(2, length(gateway:contexts(lists:seq(1, 60), G))).

%% The controller ends while a request that creates a context is under way, and two rooms are lost. The next run
%% continues the other conference, and subtracts everything else.
another_run_takes_over(_) ->
    another_run(gateway:start()).

another_run_goes_on_behind_a_fence(_) ->
    another_run(gateway:start(fence())).

another_run(G) ->
    run([{<<"a">>, G}]),
    ok = people:create(<<"100">>, people:isolation(bob)),
    Before = [join(<<"100">>, Id, <<"member">>) || Id <- [alice, bob, carol]],
    _ = join(<<"200">>, dave, <<"member">>),
    #{context := Context} = people:describe(<<"100">>),
    gateway:stop(G),
    Joining = spawn(fun() -> people:join(<<"300">>, erin, <<"member">>, media(40000), sendrecv) end),
    lobby_case:until(fun() -> lobby_store:size(lobby_requests) =:= 1 end),
    exit(Joining, kill),
    [ended(Id) || Id <- [dave, erin]],
    ok = application:stop(lobby),
    [ok = lobby_store:delete(lobby_rooms, Room) || Room <- [<<"200">>, <<"300">>]],
    gateway:continue(G),
    timer:sleep(500),
    %% Retransmissions have created no other contexts, because the gateway keeps 32 replies.
    ?assertEqual([2, 3, 4], gateway:contexts([2, 3, 4], G)),
    run([{<<"a">>, G}]),
    lobby_case:until(fun() -> lists:sort([Context, sentinel(G)]) =:= gateway:contexts(lists:seq(1, 60), G) end),
    ?assertMatch(#{context := Context}, people:describe(<<"100">>)),
    ?assertEqual([{alice, carol}, {carol, alice}], heard(<<"100">>, #{<<"a">> => G})),
    [people:start_again(Id) || Id <- [alice, bob, carol]],
    ?assertEqual(Before, [begin {ok, Local} = people:update(Id, #{}), Local end || Id <- [alice, bob, carol]]),
    ?assertMatch([{_, #{terminations := 4, contexts := 2}}], lobby_gateway:serving()).

fence() -> ["--fence", "--controller", "127.0.0.1"].

%% Alice was unmuted and muted again, and another run has taken over. A copy of the first request was in flight all the
%% time.
an_old_request_is_stale(_) ->
    Modes = after_an_old_request(fence()),
    lobby_case:stays(fun() -> Modes() =:= ['SendOnly', 'SendReceive'] end).

an_old_request_is_run_without_a_fence(_) ->
    Modes = after_an_old_request([]),
    lobby_case:until(fun() -> Modes() =:= ['SendReceive', 'SendReceive'] end).

relayed(Options) ->
    G = gateway:start(Options),
    %% Rooms audit so rarely that no audit corrects a request that is run late.
    ok = application:set_env(lobby, room_audit, 600000),
    {G, relay:start(gateway:address(G), #{lose => 0.0, double => 0.0, delay => 1})}.

%% Returns a function that returns the modes on the gateway.
after_an_old_request(Options) ->
    {G, Relay} = relayed(Options),
    run([{<<"a">>, G}], #{address => relay:address(Relay), quiet => 100}),
    _ = [join(<<"100">>, Id, <<"member">>) || Id <- [alice, bob]],
    #{context := Context} = people:describe(<<"100">>),
    {ok, _} = people:update(alice, #{muted => true}),
    relay:copy(Relay, <<"MO=SR">>),
    {ok, _} = people:update(alice, #{muted => false}),
    relay:pass(Relay),
    {ok, _} = people:update(alice, #{muted => true}),
    relay:wait_for_acknowledgements(100, Relay),
    ok = application:stop(lobby),
    run([{<<"a">>, G}], #{address => relay:address(Relay), quiet => 100}),
    Modes = fun() -> lists:sort(maps:values(gateway:modes(Context, G))) end,
    ?assertEqual(['SendOnly', 'SendReceive'], Modes()),
    relay:release(Relay),
    Modes.

%% Bob's Add was held up in the network, and another run, which doesn't know of it, has taken over.
a_held_up_add_is_stale(_) ->
    Terminations = after_a_held_up_add(fence()),
    lobby_case:stays(fun() -> length(Terminations()) =:= 1 end).

a_held_up_add_is_run_without_a_fence(_) ->
    Terminations = after_a_held_up_add([]),
    lobby_case:until(fun() -> length(Terminations()) =:= 2 end).

after_a_held_up_add(Options) ->
    {G, Relay} = relayed(Options),
    run([{<<"a">>, G}], #{address => relay:address(Relay)}),
    _ = join(<<"100">>, alice, <<"member">>),
    #{context := Context} = people:describe(<<"100">>),
    relay:copy(Relay, <<"O-A=">>),
    relay:drop(Relay, <<"O-A=">>),
    Joining = spawn(fun() -> people:join(<<"100">>, bob, <<"member">>, media(40000), sendrecv) end),
    lobby_case:until(fun() -> lobby_store:size(lobby_requests) =:= 1 end),
    exit(Joining, kill),
    ok = application:stop(lobby),
    ok = application:stop(mnesia),
    %% Without the store, the run's number is the Unix time.
    timer:sleep(2100),
    relay:pass(Relay),
    run([{<<"a">>, G}], #{address => relay:address(Relay)}),
    relay:release(Relay),
    fun() -> gateway:terminations(Context, G) end.

%% Another controller has a higher number. The gateway still answers senders without a number.
one_that_is_fenced_off_says_so(_) ->
    G = gateway:start(fence()),
    run([{<<"a">>, G}], #{tries => 4}),
    ok = lobby_events:subscribe({<<"test">>, operator}),
    _ = gateway:ask_as("4294967295.other", "Context=-{AuditValue=ROOT}", G),
    receive {lobby_event, {gateway, <<"a">>, fenced}} -> ok after 40000 -> error(not_fenced) end,
    ?assertEqual([], lobby_gateway:serving()).

%% Numbers rise even if the process fails repeatedly, the clock is set back, or the store is lost.
numbers_only_rise(_) ->
    {ok, Socket} = gen_udp:open(0, [binary, {ip, {127, 0, 0, 1}}, {active, false}]),
    {ok, Port} = inet:port(Socket),
    ok = application:set_env(lobby, gateways, [#{name => <<"a">>, address => {{127, 0, 0, 1}, Port}}]),
    {ok, _} = application:ensure_all_started(lobby),
    Start = erlang:system_time(second),
    ?assert(next_number(Socket, Start - 60) < Start + 60),
    ok = lobby_store:put(lobby_settings, {number, <<"a">>}, Start + 100000),
    _ = lists:foldl(fun(_, Number) ->
        exit(lobby_registry:whereis_name({gateway, <<"a">>}), kill),
        next_number(Socket, Number)
    end, Start + 100000, lists:seq(1, 3)),
    ok = application:stop(lobby),
    ok = application:stop(mnesia),
    {ok, _} = application:ensure_all_started(lobby),
    lobby_case:until(fun() -> N = number(Socket), N > Start - 60 andalso N < Start + 1000 end).

%% Returns the first number above this one.
next_number(Socket, Before) ->
    case number(Socket) of N when N > Before -> N; _ -> next_number(Socket, Before) end.

%% Returns the sender's number in the next message to a gateway.
number(Socket) ->
    {ok, {_, _, Message}} = gen_udp:recv(Socket, 0, 15000),
    case re:run(Message, "^!/1 <(\\d+)\\.lobby>", [{capture, all_but_first, binary}]) of
        {match, [Number]} -> binary_to_integer(Number);
        nomatch -> number(Socket)
    end.

%% The rooms are restored while a gateway with a journal is away.
rooms_that_are_gone_end_when_a_gateway_returns(Config) ->
    {G, Journal} = journaled(5000, [], Config),
    join(<<"200">>, dave, <<"member">>),
    gateway:kill(G),
    event({gateway, <<"a">>, away}),
    ended(dave),
    ok = lobby_store:delete(lobby_rooms, <<"200">>),
    Before = killed(lobby_room_sup),
    lobby_case:until(fun() -> is_up(lobby_room_sup, Before) end),
    _ = gateway:restart(G, Journal),
    event({gateway, <<"a">>, returned}),
    lobby_case:until(fun() -> length(gateway:contexts(lists:seq(1, 9), G)) =:= 2 end),
    ?assertEqual([{alice, carol}, {carol, alice}], heard(<<"100">>, #{<<"a">> => G})).

one_that_began_anew_between_two_runs(_) ->
    G = gateway:start(),
    run([{<<"a">>, G}]),
    ok = people:create(<<"100">>, people:isolation(bob)),
    [join(<<"100">>, Id, <<"member">>) || Id <- [alice, bob, carol]],
    ok = application:stop(lobby),
    New = gateway:restart(G, ["--first-context", "500"]),
    run([{<<"a">>, New}]),
    %% The members are added as Inactive before the topology is in effect.
    lobby_case:until(fun() -> all_held(<<"100">>) andalso heard(<<"100">>, #{<<"a">> => New}) =:= [{alice, carol}, {carol, alice}] end).

%% Some of the controller's processes are killed in turn. The rooms stay, the gateway has no orphaned terminations, and
%% the rules hold.
processes_fail(_) ->
    G = gateway:start(),
    run([{<<"a">>, G}]),
    Gs = #{<<"a">> => G},
    ok = people:create(<<"100">>, people:isolation(bob)),
    [join(<<"100">>, Id, <<"member">>) || Id <- [alice, bob, carol]],
    [begin
         Before = killed(Name),
         lobby_case:until(fun() -> is_up(Name, Before) andalso length(lobby_gateway:serving()) =:= 1 andalso all_held(<<"100">>) end),
         ?assertEqual([{alice, carol}, {carol, alice}], heard(<<"100">>, Gs)),
         [#{terminations := Used, contexts := Contexts}] = [Load || {_, Load} <- lobby_gateway:serving()],
         ?assertEqual({4, 2}, {Used, Contexts}),
         ?assertEqual(1, length(gateway:contexts(lists:seq(1, 60), G) -- [sentinel(G)]))
     end || Name <- [{room, <<"100">>}, {gateway, <<"a">>}, lobby_registry, lobby_gateway_sup, lobby_room_sup, {room, <<"100">>}]].

%% Returns the context of the sentinel: the context whose only termination is inactive.
sentinel(G) ->
    hd([Context || Context <- gateway:contexts(lists:seq(1, 60) ++ lists:seq(500, 560), G), maps:values(gateway:modes(Context, G)) =:= ['Inactive']]).

process(Name) when is_atom(Name) -> whereis(Name);
process(Name) -> lobby_registry:whereis_name(Name).

killed(Name) ->
    Pid = process(Name),
    exit(Pid, kill),
    Pid.

is_up(Name, Before) ->
    whereis(lobby_registry) =/= undefined andalso process(Name) =/= undefined andalso process(Name) =/= Before
        andalso lobby_registry:whereis_name({room, <<"100">>}) =/= undefined.

all_held(Room) ->
    #{members := Members} = people:describe(Room),
    lists:all(fun(Member) -> is_map_key(termination, Member) end, maps:values(Members)).

%% The room's process ends after it has sent an Add. No room knows the termination, so it has to be subtracted.
a_room_fails_in_the_middle_of_a_request(_) ->
    G = gateway:start(),
    run([{<<"a">>, G}]),
    join(<<"100">>, alice, <<"member">>),
    [begin
         gateway:stop(G),
         Joining = spawn(fun() -> people:join(Room, bob, <<"member">>, media(40000), sendrecv) end),
         timer:sleep(50),
         exit(Joining, kill),
         ended(bob),
         exit(lobby_registry:whereis_name({room, Room}), kill),
         gateway:continue(G),
         timer:sleep(300),
         lobby_case:until(fun() -> [{U, C} || {_, #{terminations := U, contexts := C}} <- lobby_gateway:serving()] =:= [{2, 2}] end),
         ?assertEqual(2, length(gateway:contexts(lists:seq(1, 60), G)))
     end || Room <- [<<"100">>, <<"200">>]].

somebody_else_changes_the_topology(_) ->
    G = gateway:start(),
    run([{<<"a">>, G}]),
    ok = people:create(<<"100">>, people:isolation(bob)),
    [join(<<"100">>, Id, <<"member">>) || Id <- [alice, bob, carol]],
    ?assertEqual(same, people:audit(<<"100">>)),
    #{context := Context} = people:describe(<<"100">>),
    gateway:ask(io_lib:format("Context=~b{Topology{*,*,Bothway},AuditValue=ROOT}", [Context]), G),
    gateway:ask(io_lib:format("Context=~b{Topology{*,*,Bothway}}", [Context]), G),
    ?assertEqual(6, length(gateway:topology(Context, G))),
    ?assertEqual(repaired, people:audit(<<"100">>)),
    ?assertEqual([{alice, carol}, {carol, alice}], heard(<<"100">>, #{<<"a">> => G})),
    %% The room also audits the gateway without a request.
    gateway:ask(io_lib:format("Context=~b{Topology{*,*,Isolate}}", [Context]), G),
    lobby_case:until(fun() -> heard(<<"100">>, #{<<"a">> => G}) =:= [{alice, carol}, {carol, alice}] end, 8000).

%% Creates rooms of three members on both gateways. In each room, one member is isolated. Returns the rooms, and the
%% callers of the other members.
rooms_of_three(Gs) ->
    run(maps:to_list(Gs)),
    Rooms = [integer_to_binary(N) || N <- lists:seq(1, 6)],
    Ears = lists:append([begin
        ok = people:create(Room, []),
        Callers = [begin
            Caller = caller:start(),
            {ok, _} = people:joins({Room, N}, #{room => Room, role => <<"member">>, isolated => N =:= 1, caller => Caller}),
            Caller
        end || N <- [1, 2, 3]],
        tl(Callers)
    end || Room <- Rooms]),
    ?assertEqual([<<"a">>, <<"b">>], lists:usort([gateway_of(Room) || Room <- Rooms])),
    {Rooms, Ears}.

gateway_of(Room) -> maps:get(gateway, people:describe(Room)).

%% Checks that in each room, only the two listeners hear each other.
has(Rooms, Gs) ->
    [?assertEqual([{{Room, 2}, {Room, 3}}, {{Room, 3}, {Room, 2}}], heard(Room, Gs)) || Room <- Rooms].

all_of(G) -> gateway:contexts(lists:seq(1, 100), G).

%% The gateway's rooms leave it one after the other, together with members who join meanwhile. Isolated members stay
%% isolated. New rooms are created elsewhere. In the end, the gateway has no terminations of ours until it is resumed.
one_is_drained(_) ->
    Gs = #{<<"a">> := A} = maps:from_list([{Name, gateway:start()} || Name <- [<<"a">>, <<"b">>]]),
    {Rooms, _} = rooms_of_three(Gs),
    On = hd([Room || Room <- Rooms, gateway_of(Room) =:= <<"a">>]),
    ok = lobby_gateway:drain(<<"a">>, true),
    ok = lobby_gateway:drain(<<"a">>, true),
    join(On, late, <<"member">>),
    join(<<"new">>, first, <<"member">>),
    ?assertEqual(<<"b">>, gateway_of(<<"new">>)),
    lobby_case:until(fun() -> all_of(A) =:= [] end),
    ?assertMatch([{{<<"a">>, _}, #{draining := true, terminations := 0}}, {{<<"b">>, _}, #{draining := false}}], lobby_gateway:serving()),
    ok = people:leave(late),
    has(Rooms, Gs),
    %% The gateway stays drained after a failure of its process.
    exit(lobby_registry:whereis_name({gateway, <<"a">>}), kill),
    lobby_case:until(fun() -> lobby_registry:whereis_name({gateway, <<"a">>}) =/= undefined end),
    timer:sleep(500),
    ?assertEqual([], all_of(A)),
    ok = lobby_gateway:drain(<<"a">>, false),
    lobby_case:until(fun() -> [false, false] =:= [Is || {_, #{draining := Is}} <- lobby_gateway:serving()] end),
    join(<<"another">>, second, <<"member">>),
    ?assertEqual(<<"a">>, gateway_of(<<"another">>)),
    ?assertEqual({error, no_gateway}, lobby_gateway:drain(<<"c">>, true)).

%% The gateway is killed while its rooms leave, and restarts. Its terminations are subtracted, and no room returns to
%% it.
one_that_is_drained_fails(_) ->
    Gs = #{<<"a">> := A} = maps:from_list([{Name, gateway:start()} || Name <- [<<"a">>, <<"b">>]]),
    {Rooms, _} = rooms_of_three(Gs),
    ok = lobby_gateway:drain(<<"a">>, true),
    lobby_case:until(fun() -> length([on || Room <- Rooms, gateway_of(Room) =:= <<"b">>]) > 3 end),
    Again = gateway:restart(A, []),
    lobby_case:until(fun() -> [<<"b">>] =:= lists:usort([gateway_of(Room) || Room <- Rooms]) end),
    lobby_case:until(fun() -> all_of(Again) =:= [] end),
    timer:sleep(1000),
    ?assertEqual([], all_of(Again)),
    has(Rooms, Gs#{<<"a">> := Again}).

%% Members stay on a gateway that is being drained until another gateway has seats.
what_has_no_room_elsewhere_stays(_) ->
    Gs = #{<<"a">> := A} = maps:from_list([{Name, gateway:start()} || Name <- [<<"a">>, <<"b">>]]),
    run([{<<"a">>, A}]),
    ok = people:create(<<"1">>, []),
    [join(<<"1">>, N, <<"member">>) || N <- [1, 2]],
    ok = lobby_gateway:drain(<<"a">>, true),
    timer:sleep(700),
    ?assertEqual([{1, 2}, {2, 1}], heard(<<"1">>, Gs)),
    join(<<"1">>, 3, <<"member">>),
    ok = people:isolate(3),
    ?assertEqual({error, no_room}, people:join(<<"2">>, 4, <<"member">>)),
    ?assertEqual([{1, 2}, {2, 1}], heard(<<"1">>, Gs)),
    ok = lobby_gateway:drain(<<"a">>, false),
    join(<<"2">>, 4, <<"member">>).

lost_and_doubled_datagrams(_) ->
    G = gateway:start(),
    Relay = relay:start(gateway:address(G), #{lose => 0.15, double => 0.2, delay => 60}),
    ok = application:set_env(lobby, gateways, [#{name => <<"a">>, address => relay:address(Relay), tries => 12, quiet => 500}]),
    {ok, _} = application:ensure_all_started(lobby),
    lobby_case:until(fun() -> length(lobby_gateway:serving()) =:= 1 end),
    ok = people:create(<<"100">>, []),
    [begin
         join(<<"100">>, N, <<"member">>),
         ok = people:set_rules(<<"100">>, people:isolation(N))
     end || N <- lists:seq(1, 12)],
    Others = lists:seq(1, 11),
    ?assertEqual(lists:sort([{A, B} || A <- Others, B <- Others, A =/= B]), heard(<<"100">>, #{<<"a">> => G})),
    %% Copies and acknowledgements may still be in flight.
    timer:sleep(1000),
    ?assertEqual(lists:sort([{A, B} || A <- Others, B <- Others, A =/= B]), heard(<<"100">>, #{<<"a">> => G})),
    ?assertEqual(2, length(gateway:contexts(lists:seq(1, 60), G))).

%% Makes random changes and failures on two gateways. After each change, the gateways' flows must equal the flows that
%% the rules allow. The test derives the rules from its own requests.
anything_for_some_seconds() -> [{timetrap, {hours, 3}}].

anything_for_some_seconds(_) ->
    A = gateway:start(),
    B = gateway:start(["--first-context", "5000", "--first-termination", "5000"]),
    run([{<<"a">>, A}, {<<"b">>, B}]),
    [ok = people:create(Room, []) || Room <- [<<"1">>, <<"2">>]],
    %% Environment variables set the duration, and repeat the changes of an earlier run: ANYTHING_SECONDS=3600
    %% ANYTHING_SEED=1.
    Seconds = list_to_integer(os:getenv("ANYTHING_SECONDS", "8")),
    Seed = list_to_integer(os:getenv("ANYTHING_SEED", integer_to_list(erlang:monotonic_time()))),
    _ = rand:seed(exsss, Seed),
    ct:pal("seed ~b", [Seed]),
    End = erlang:monotonic_time(millisecond) + 1000 * Seconds,
    Changes = anything(End, #{gateways => #{<<"a">> => A, <<"b">> => B}, changes => 0, rules => #{<<"1">> => [], <<"2">> => []}, ids => #{}}),
    ct:pal("~b changes", [Changes]),
    ?assert(Changes > 200).

anything(End, W = #{changes := N}) ->
    case erlang:monotonic_time(millisecond) < End of
        false -> N;
        true ->
            W1 = anything_once(rand:uniform(100), W),
            [check(Room, W1) || Room <- [<<"1">>, <<"2">>]],
            N rem 10000 =:= 9999 andalso ct:pal("~b changes", [N + 1]),
            anything(End, W1#{changes := N + 1})
    end.

anything_once(1, W = #{gateways := Gs}) ->
    Name = lists:nth(rand:uniform(2), [<<"a">>, <<"b">>]),
    Numbers = integer_to_list(10000 * rand:uniform(100000)),
    W#{gateways := Gs#{Name := gateway:restart(maps:get(Name, Gs), ["--first-context", Numbers, "--first-termination", Numbers])}};
anything_once(2, W) ->
    exit(lobby_registry:whereis_name({room, <<"1">>}), kill),
    lobby_case:until(fun() -> lobby_registry:whereis_name({room, <<"1">>}) =/= undefined end),
    W;
%% Members join, move and leave. A person who joins again gets a new id.
anything_once(K, W = #{ids := Ids}) when K < 40 ->
    N = rand:uniform(8),
    case Ids of
        #{N := Id} when K < 20 -> ok = people:leave(Id), W#{ids := maps:remove(N, Ids)};
        #{N := Id} ->
            {ok, #{room := Room}} = lobby_member:find(Id),
            _ = people:move(Id, case Room of <<"1">> -> <<"2">>; <<"2">> -> <<"1">> end),
            W;
        #{} ->
            Id = {N, erlang:unique_integer()},
            Role = lists:nth(rand:uniform(2), [<<"x">>, <<"y">>]),
            case people:join(integer_to_binary(rand:uniform(2)), Id, Role) of
                {ok, _} -> W#{ids := Ids#{N => Id}};
                {error, _} -> W
            end
    end;
anything_once(K, W = #{ids := Ids}) when K < 60, map_size(Ids) > 0 ->
    Id = lists:nth(rand:uniform(map_size(Ids)), maps:values(Ids)),
    _ = people:update(Id, lists:nth(rand:uniform(3), [#{isolated => true}, #{isolated => false}, #{role => <<"x">>}])),
    W;
anything_once(_, W = #{rules := Rules, ids := Ids}) ->
    Party = fun() -> lists:nth(rand:uniform(4), [everyone, {role, <<"x">>}, {role, <<"y">>}, {member, maps:get(rand:uniform(8), Ids, nobody)}]) end,
    Room = integer_to_binary(rand:uniform(2)),
    New = {_, From, To} = {lists:nth(rand:uniform(2), [allow, deny]), Party(), Party()},
    case people:add_rules(Room, [New]) of
        %% A room that is killed repeatedly has no time to drop the rules about members who have left.
        {error, too_many_rules} -> W;
        _ -> W#{rules := Rules#{Room := [Rule || Rule = {_, F, T} <- maps:get(Room, Rules), {F, T} =/= {From, To}] ++ [New]}}
    end.

%% Waits until the room is empty, or has a running gateway whose flows follow the rules.
check(Room, #{gateways := Gs, rules := Rules}) ->
    lobby_case:until(fun() -> agrees(Room, maps:get(Room, Rules), Gs) end).

agrees(Room, Rules, Gs) ->
    case people:describe(Room) of
        #{members := Members} when map_size(Members) =:= 0 -> true;
        #{gateway := none} -> false;
        About = #{members := Members, gateway := Name, context := Context} when is_integer(Context) ->
            G = maps:get(Name, Gs),
            Wanted = lists:sort([{A, B} || {A, #{role := RA, isolated := false}} <- maps:to_list(Members),
                                           {B, #{role := RB, isolated := false}} <- maps:to_list(Members),
                                           A =/= B, hears({B, RB}, {A, RA}, Rules)]),
            Ids = ids(About),
            There = gateway:terminations(Context, G),
            lists:sort(maps:keys(Ids)) =:= There
                andalso (length(There) < 2 orelse Wanted =:= lists:sort([{maps:get(A, Ids), maps:get(B, Ids)}
                                                                          || {A, B} <- gateway:topology(Context, G)]));
        _ -> false
    end.

hears(Listener, Talker, Rules) ->
    lists:foldl(fun({Verdict, From, To}, Before) ->
        case names(From, Talker) andalso names(To, Listener) of true -> Verdict =:= allow; false -> Before end
    end, true, Rules).

names(everyone, _) -> true;
names({member, Id}, {Id, _}) -> true;
names({role, Role}, {_, Role}) -> true;
names(_, _) -> false.
