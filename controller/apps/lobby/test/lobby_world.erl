%% A small world for searches: people, rooms, and gateways that run the proved program. The controller's own modules
%% make its decisions. This module models everything between them: the store, messages, datagrams, failures, and phones.
%%
%% Between any two events, a change can be requested, and a process can be killed. A gateway can end, and restart empty
%% or from its journal. The other node of a pair can take over. A datagram can be lost, duplicated, or delayed for long.
%% Messages arrive in the order in which they were sent, except for a few that overtake others. Timers expire only when
%% no message is in flight, so nothing waits without a reason; but the timers of rooms and members may expire early.
-module(lobby_world).

-export([start/1, model/1, format/1]).
-export_type([world/0, options/0]).

%% A person and the number of the person's call, because the controller never uses an id twice.
-type id() :: {Name :: atom(), Call :: pos_integer()}.
%% `people': the people with their roles. `rooms': the rooms that they may join. `joined': the people who are in rooms
%% at the start. `door': newcomers wait until they are let in. `rules': each room's rules at the start. `rulesets': the
%% rules that a room may get. `roles': the roles that a person may get. `seats': the maximum number of terminations of
%% each gateway, including the sentinel. `changes' and `faults': their maximum number, and their kinds or the changes
%% themselves. `races': the maximum number of messages that overtake others. `journal': gateways that end may resume.
%% `pair': another node may take over. `fence': messages that an earlier run sent within `quiet' of its end may arrive
%% at any later time, repeatedly; with `whenever', all its messages may. Gateways drop messages with a number below the
%% fence. With `ignored', gateways have no fence.
-type options() :: #{people := #{atom() => binary()}, rooms := [binary()], joined => [{atom(), binary()}], door => boolean(),
                     rules => [lobby_rules:rule()], rulesets => [[lobby_rules:rule()]], roles => [binary()],
                     seats := #{atom() => pos_integer()}, changes := {non_neg_integer(), [atom() | tuple()]},
                     faults := {non_neg_integer(), [atom()]}, races => non_neg_integer(),
                     journal => boolean(), pair => boolean(), fence => true | whenever | ignored}.

-record(world, {options :: options(), oracles :: #{atom() => oracle:oracle()},
                now = 1000000 :: integer(), run = 1 :: pos_integer(),
                %% The processes. A person without a process hasn't called, or has hung up.
                people = #{} :: #{id() => lobby_person:person()}, rooms = #{} :: #{binary() => lobby_room_core:room()},
                gateways = #{} :: #{atom() => lobby_gateway_core:gateway()},
                timers = #{} :: #{{room | gateway | node, term(), atom()} => integer()},
                loads = #{} :: #{atom() => {term(), map()}},
                %% The store's tables: {Table, Key} => Value.
                store = #{} :: #{{atom(), term()} => term()},
                %% The other node's copy of the store, and the people who had called by then. With `none', no node can
                %% take over.
                standby = none :: none | copied | {behind, Store :: #{{atom(), term()} => term()}, [id()]},
                %% The proved gateways' worlds, or `ended', and the worlds of gateways that may resume. Datagrams that
                %% may still arrive, each until a time.
                worlds = #{} :: #{atom() => oracle:world() | ended}, journals = #{} :: #{atom() => oracle:world()},
                late = [] :: [{atom(), binary(), integer() | infinity}],
                %% With a fence, the messages that were sent lately, each with the time until which a copy may still
                %% arrive.
                sent = [] :: [{atom(), binary(), integer() | infinity}],
                %% The highest number among the messages that a gateway has run. The gateway's journal keeps it.
                fences = #{} :: #{atom() => pos_integer()},
                %% The messages in flight between processes (and `net'), in order.
                queues = #{} :: #{{From :: term(), To :: term()} => [term()]},
                %% The number of each person's calls. The addresses to which the phones send.
                calls = #{} :: #{atom() => pos_integer()},
                phones = #{} :: #{id() => {atom(), lobby_h248:endpoint()} | gone},
                changes = 0 :: non_neg_integer(), faults = 0 :: non_neg_integer(), races = 0 :: non_neg_integer(),
                %% The promises, and the answers that wait until the other node can't take over without the change.
                promises = promises:new() :: promises:promises(), unanswered = [] :: [asked() | {durable, atom(), pos_integer()}]}).
%% A setting, and the number of the change.
-type asked() :: {Key :: term(), Number :: term()}.
-opaque world() :: #world{}.

%% Milliseconds for which a copy of a request can still arrive.
-define(QUIET, 5000).
%% Milliseconds after a cut for which the other node can still take over.
-define(ALONE, 3010).

%%% The start of a world: gateways that serve, and members who have joined.

-spec start(options()) -> world().
start(Options = #{seats := Seats, rooms := Rooms, changes := {Changes, _}, faults := {Faults, _}}) ->
    Oracles = maps:map(fun(G, Slots) ->
        oracle:start(#{slots => Slots, arguments => ["--address", inet:ntoa(address(G))]})
    end, Seats),
    Rules = lists:foldl(fun(R, P) -> promises:given({rules, R}, rules(Options), P) end, promises:new(), Rooms),
    World = #world{options = Options#{door => false}, oracles = Oracles, changes = Changes, faults = Faults,
                   races = maps:get(races, Options, 0), promises = Rules,
                   worlds = maps:map(fun(_, Oracle) -> oracle:new(Oracle) end, Oracles)},
    Serving = serving(lists:foldl(fun(G, W) -> started({gateway, G}, W) end, World, maps:keys(Seats))),
    Joined = lists:foldl(fun({Name, Room}, W) -> settled(change({join, {Name, 1}, Room}, W)) end, Serving,
                         maps:get(joined, Options, [])),
    Joined#world{options = Options, standby = case is_pair(Options) of true -> copied; false -> none end}.

rules(Options) -> maps:get(rules, Options, []).
is_pair(Options) -> maps:get(pair, Options, false).

address(G) -> {10, 0, 1, maps:get(G, #{a => 1, b => 2, c => 3})}.

%% Returns the media of a call. Each call sends from its own port.
remote({Name, Call}) -> {{{10, 0, 0, maps:get(Name, #{ann => 1, bob => 2, cay => 3, dan => 4})}, port(Call)}, pcmu}.

port(Call) -> 40000 + 2 * Call.

%% Returns the call to which a Remote belongs.
person(Host, Port) -> {lists:nth(Host, [ann, bob, cay, dan]), (Port - 40000) div 2}.

config(G, Options = #{seats := Seats}) ->
    #{name => G, address => {address(G), 2944}, here => {127, 0, 0, 1}, retry => 100, tries => 4, quiet => ?QUIET,
      audit => 250, returns => case Options of #{journal := true} -> 10000; _ -> 0 end,
      terminations => maps:get(G, Seats), contexts => 64}.

%% Lets timers expire until all gateways serve, because a node of a pair waits before that.
serving(World0) ->
    World = #world{worlds = Worlds, loads = Loads} = settled(World0),
    case map_size(Loads) =:= map_size(Worlds) of
        true -> World;
        false -> serving(step(hd(timeouts(World)), World))
    end.

%% Delivers messages until none is in flight. Fails if that takes too many steps.
settled(World) -> settled(World, 500).

settled(_, 0) -> error(never_settles);
settled(World, Left) ->
    case deliveries(World) of
        [Event | _] -> settled(step(Event, World), Left - 1);
        [] -> World
    end.

%%% Returns the model for the search.

-spec model(options()) -> search:model().
model(Options) ->
    World = start(Options),
    Known = canonical:new(),
    #{start => World, events => fun events/1, step => fun step/2, broken => fun broken/1,
      final => fun(W) -> at_rest(W, 2000) end, canonical => fun(W) -> canonical(W, Known) end}.

events(World) ->
    case deliveries(World) of
        [] -> timeouts(World) ++ others(World);
        [First | Others] -> [First | [{race, Other} || World#world.races > 0, Other <- Others]] ++ others(World)
    end.

others(World) -> changes(World) ++ faults(World) ++ arrivals(World) ++ returns(World).

arrivals(#world{late = Late}) -> [{arrive, N} || N <- lists:seq(1, length(Late))].

returns(#world{journals = Journals, standby = Standby}) ->
    [{resume, G} || G <- lists:sort(maps:keys(Journals))] ++ [take_over || {behind, _, _} <- [Standby]].

deliveries(#world{queues = Queues}) -> [{deliver, From, To} || {From, To} <- lists:sort(maps:keys(Queues))].

%% Returns the next timer to expire, without timers that restart forever.
timeouts(World = #world{timers = Timers, people = People}) ->
    Sorted = lists:sort([{Due, Key} || {Key, Due} <- maps:to_list(Timers)]),
    Needed = [{timer, Key} || {_, Key} <- Sorted, is_needed(Key, World)],
    Again = [{again, Id} || {Id, Person} <- lists:sort(maps:to_list(People)), not lobby_person:is_settled(Person)],
    Looks = [{look, G} || G <- lists:sort(maps:keys(World#world.gateways)), orphans(G, World) =/= []],
    lists:sublist(Needed ++ Again ++ Looks, 1).

orphans(G, #world{gateways = Gateways, store = Store}) ->
    GatewayOf = fun(R) -> maps:get(gateway, maps:get({lobby_rooms, R}, Store, #{}), none) end,
    lobby_gateway_core:orphans(fun(Id) -> maps:find({lobby_members, Id}, Store) end, GatewayOf, maps:get(G, Gateways)).

is_needed({node, _, _}, _) -> true;
%% Returns whether a timer is needed. The controller never stops asking a lost gateway whether it is back.
is_needed({gateway, G, transactions}, #world{worlds = Worlds, loads = Loads}) ->
    maps:get(G, Worlds) =/= ended orelse is_map_key(G, Loads);
is_needed({gateway, _, probe}, _) -> true;
is_needed({gateway, _, clean}, _) -> true;
is_needed({gateway, G, back}, #world{worlds = Worlds}) -> maps:get(G, Worlds) =:= ended;
%% An audit of the sentinel reveals that a gateway has ended or has restarted empty.
is_needed({gateway, G, audit}, #world{worlds = Worlds, oracles = Oracles, store = Store}) ->
    case {Worlds, Store} of
        {#{G := ended}, _} -> true;
        {#{G := World}, #{{lobby_gateways, G} := #{sentinel := {_, T, _}}}} ->
            maps:get(T, oracle:remotes(maps:get(G, Oracles), World), none) =/= {<<"127.0.0.9">>, <<"9">>};
        {_, _} -> false
    end;
%% Rooms can leave if there is another gateway. The sentinel is the last termination to go.
is_needed({gateway, G, leave}, #world{loads = Loads}) ->
    case Loads of
        #{G := {_, #{contexts := 1}}} -> true;
        #{G := _} -> [Other || {Other, {_, #{draining := false}}} <- maps:to_list(Loads), Other =/= G] =/= [];
        #{} -> false
    end;
is_needed({room, R, retry}, #world{rooms = Rooms}) ->
    is_map_key(R, Rooms) andalso not lobby_room_core:agrees(maps:get(R, Rooms)).

changes(#world{changes = 0}) -> [];
changes(W = #world{options = #{changes := {_, Kinds}}}) ->
    [{change, Change} || Kind <- Kinds, Change <- changes(Kind, W)].

changes(join, #world{options = #{people := Roles, rooms := Rooms}, calls = Calls, people = People}) ->
    [{join, {Name, Call + 1}, R} || Name <- lists:sort(maps:keys(Roles)), Call <- [maps:get(Name, Calls, 0)],
                                    not is_map_key({Name, Call}, People), R <- Rooms];
changes(move, W = #world{options = #{rooms := Rooms}}) -> [{move, Id, R} || Id <- callers(W), R <- Rooms];
changes(role, W = #world{options = #{roles := Roles}}) -> [{role, Id, Role} || Id <- callers(W), Role <- Roles];
changes(let_in, W) -> [{let_in, Id} || Id <- callers(W), promises:possible({waiting, Id}, W#world.promises) =/= [false]];
changes(rules, #world{options = #{rooms := Rooms, rulesets := Sets}}) -> [{rules, R, Rules} || R <- Rooms, Rules <- Sets];
changes(oneway, W) -> [{oneway, Talker, Listener} || Talker <- callers(W), Listener <- callers(W), Talker =/= Listener];
changes(drain, #world{gateways = Gateways}) -> [{drain, G, Is} || G <- lists:sort(maps:keys(Gateways)), Is <- [true, false]];
changes(watch, #world{rooms = Rooms}) -> [{watch, R} || R <- lists:sort(maps:keys(Rooms))];
changes(Kind, W) when is_atom(Kind) -> [{Kind, Id} || Id <- callers(W)];
changes(Change = {drain, _, _}, _) -> [Change];
changes(Change, W) -> [Change || lists:member(element(2, Change), callers(W))].

callers(#world{people = People}) -> lists:sort(maps:keys(People)).

faults(#world{faults = 0}) -> [];
faults(W = #world{options = #{faults := {_, Kinds}}}) ->
    [{fault, Fault} || Kind <- Kinds, Fault <- faults(Kind, W)].

faults(lose, W) -> [{lose, Key} || Key <- datagrams(W)];
faults(double, W) -> [{double, Key} || Key = {_, {net, _}} <- datagrams(W)];
faults(late, W = #world{late = Late}) ->
    [{late, Key} || Key = {_, {net, _}} <- datagrams(W), [L || L = {_, _, Until} <- Late, Until =/= infinity] =:= []];
faults(early, #world{timers = Timers, rooms = Rooms, people = People}) ->
    [{early, {timer, Key}} || Key = {room, R, retry} <- lists:sort(maps:keys(Timers)), is_map_key(R, Rooms)]
        ++ [{early, {again, Id}} || {Id, Person} <- lists:sort(maps:to_list(People)), not lobby_person:is_settled(Person)];
faults(kill_person, W) -> [{kill, {person, Id}} || Id <- callers(W)];
faults(kill_room, #world{rooms = Rooms}) -> [{kill, {room, R}} || R <- lists:sort(maps:keys(Rooms))];
faults(kill_gateway, #world{gateways = Gateways}) -> [{kill, {gateway, G}} || G <- lists:sort(maps:keys(Gateways))];
faults(lose_gateway, W) -> [{'end', G} || G <- running(W)];
faults(begin_anew, W) -> [{anew, G} || G <- running(W)];
faults(take_over, #world{standby = Standby}) -> [take_over || Standby =:= copied];
faults(cut, #world{standby = Standby}) -> [cut || Standby =:= copied].

running(#world{worlds = Worlds}) -> [G || {G, World} <- lists:sort(maps:to_list(Worlds)), World =/= ended].

datagrams(#world{queues = Queues}) ->
    [Key || Key = {From, To} <- lists:sort(maps:keys(Queues)), is_net(From) orelse is_net(To)].

is_net({net, _}) -> true;
is_net(_) -> false.

step({deliver, From, To}, W = #world{queues = Queues}) ->
    #{{From, To} := [Message | Rest]} = Queues,
    Left = case Rest of [] -> maps:remove({From, To}, Queues); _ -> Queues#{{From, To} := Rest} end,
    received(To, From, Message, W#world{queues = Left});
step({race, Delivery}, W = #world{races = N}) ->
    step(Delivery, W#world{races = N - 1});
step({timer, Key}, W = #world{timers = Timers, now = Now, late = Late, sent = Sent}) ->
    {Due, Rest} = maps:take(Key, Timers),
    Still = fun({_, _, Until}) -> Until > Due end,
    ran_out(Key, W#world{timers = Rest, now = max(Now, Due), late = lists:filter(Still, Late), sent = lists:filter(Still, Sent)});
step({look, G}, W) -> handled({gateway, G}, {orphans, orphans(G, W)}, W);
step({again, Id}, W) -> handled({person, Id}, again, W);
step({change, Change}, W = #world{changes = N}) -> change(Change, W#world{changes = N - 1});
step({arrive, N}, W = #world{late = Late, queues = Queues}) ->
    case lists:nth(N, Late) of
        %% The gateway replies to the socket of the earlier run.
        {G, Datagram, infinity} -> (passed(G, Datagram, W))#world{queues = Queues};
        {G, Datagram, _} = Arriving -> passed(G, Datagram, W#world{late = Late -- [Arriving]})
    end;
step({resume, G}, W = #world{worlds = Worlds, journals = Journals}) ->
    {World, Others} = maps:take(G, Journals),
    W#world{worlds = Worlds#{G := World}, journals = Others};
step(take_over, W = #world{standby = {behind, Store, Known}}) -> taken_over(Store, Known, W);
step({fault, Fault}, W = #world{faults = N}) -> fault(Fault, W#world{faults = N - 1}).

ran_out({gateway, G, Timer}, W) -> handled({gateway, G}, {timer, Timer, {{127, 0, 0, 9}, 9}}, W);
ran_out({room, R, retry}, W) -> handled({room, R}, retry, W);
%% The other node can't take over any more.
ran_out({node, pair, alone}, W = #world{unanswered = Unanswered}) ->
    lists:foldl(fun answered/2, W#world{standby = none, unanswered = []}, Unanswered).

%%% Actions of people.

change({join, Id = {Name, Call}, Room}, W = #world{options = Options = #{people := Roles}, people = People}) ->
    Door = maps:get(door, Options, false),
    Role = case Door of true -> <<"member">>; false -> maps:get(Name, Roles) end,
    Row = lobby_member:new(Id, #{room => Room, role => Role, media => remote(Id), direction => sendrecv, waiting => Door,
                                 identity => atom_to_binary(Name), acknowledged => false}),
    Given = [{isolated, false}, {muted, false}, {waiting, Door}, {unasked, true}, {role, Role}, {room, Room}],
    handled({person, Id}, {join, {joins, Id}},
            given(Given, Id, W#world{people = People#{Id => lobby_person:new(Row)}, calls = (W#world.calls)#{Name => Call}}));
%% Moving a person also lets the person in.
change({move, Id, Room}, W) ->
    {Tag, Asked} = asked([{{room, Id}, Room} || is_pair(W#world.options)], W),
    {_, Let} = asked([{{waiting, Id}, false}], Asked),
    handled({person, Id}, {move, {asked, Tag}, Room}, Let);
change({isolate, Id}, W) -> changed(Id, #{isolated => true}, W);
change({release, Id}, W) -> changed(Id, #{isolated => false}, W);
change({mute, Id}, W) -> changed(Id, #{muted => true}, W);
change({unmute, Id}, W) -> changed(Id, #{muted => false}, W);
change({role, Id, Role}, W) -> changed(Id, #{role => Role}, W);
change({let_in, Id = {Name, _}}, W = #world{options = #{people := Roles}}) ->
    changed(Id, #{waiting => false, role => maps:get(Name, Roles)}, W);
change({rules, R, Rules}, W) -> ruled(R, set, Rules, W);
change({oneway, Talker, Listener}, W = #world{store = Store}) ->
    case {Store, is_map_key({lobby_members, Listener}, Store)} of
        {#{{lobby_members, Talker} := #{room := R}}, true} ->
            ruled(R, add, lobby_rules:oneway({member, Talker}, {member, Listener}), W);
        {_, _} -> W
    end;
change({drain, G, Is}, W) -> handled({gateway, G}, {drain, nobody, Is}, W);
change({watch, R}, W) -> handled({room, R}, watch, W);
change({leave, Id}, W = #world{phones = Phones}) -> left(Id, W#world{phones = Phones#{Id => gone}}).

changed(Id, Change, W) ->
    {Asked, Next} = asked([{{Kind, Id}, Value} || {Kind, Value} <- maps:to_list(Change)], W),
    handled({person, Id}, {change, {asked, Asked}, Change}, Next).

ruled(R, How, Rules, W = #world{changes = N, promises = P}) ->
    Key = {rules, R},
    Change = case How of
        set -> fun(_) -> Rules end;
        add -> fun(Before) -> {ok, All} = lobby_rules:add(Rules, Before), All end
    end,
    tell_room(R, {rules, [{Key, N}], How, Rules, #{}}, http, W#world{promises = promises:asked(Key, N, Change, P)}).

asked(Values, W = #world{changes = N, promises = P}) ->
    Asked = fun({Key, Value}, Acc) -> promises:asked(Key, N, fun(_) -> Value end, Acc) end,
    {[{Key, N} || {Key, _} <- Values], W#world{promises = lists:foldl(Asked, P, Values)}}.

given(Values, Id, W = #world{promises = P}) ->
    W#world{promises = lists:foldl(fun({Kind, Value}, Acc) -> promises:given({Kind, Id}, Value, Acc) end, P, Values)}.

answered({durable, G, Number}, W) -> handled({gateway, G}, {durable, Number}, W);
answered({Key, Number}, W = #world{promises = P}) -> W#world{promises = promises:answered(Key, Number, P)}.

%% In a pair, an answer waits until the other node has the change, or can't take over any more.
answered_to(Asked, W = #world{standby = {behind, _, _}, unanswered = Unanswered}) ->
    W#world{unanswered = Unanswered ++ Asked};
answered_to(Asked, W) -> lists:foldl(fun answered/2, W, Asked).

left(Id, W) ->
    Left = #world{people = People} = handled({person, Id}, leave, W),
    Left#world{people = maps:remove(Id, People), queues = to_nobody({person, Id}, Left)}.

%%% Failures.

fault({lose, Key}, W = #world{queues = Queues}) ->
    case Queues of
        #{Key := [_]} -> W#world{queues = maps:remove(Key, Queues)};
        #{Key := [_ | Rest]} -> W#world{queues = Queues#{Key := Rest}}
    end;
fault({double, Key}, W = #world{queues = Queues}) ->
    #{Key := [First | Rest]} = Queues,
    W#world{queues = Queues#{Key := [First, First | Rest]}};
%% The datagram is lost, and a copy arrives at any time within `quiet'.
fault({late, Key = {_, {net, G}}}, W = #world{queues = Queues, late = Late, now = Now}) ->
    #{Key := [First | _]} = Queues,
    fault({lose, Key}, W#world{late = [{G, First, Now + ?QUIET} | Late]});
%% A timer expires before the messages in flight have arrived. The time doesn't change.
fault({early, {timer, Key}}, W = #world{timers = Timers}) ->
    ran_out(Key, W#world{timers = maps:remove(Key, Timers)});
fault({early, Again}, W) ->
    step(Again, W);
fault({kill, {gateway, G}}, W = #world{options = #{fence := _}}) ->
    Killed = W#world{queues = maps:remove({{gateway, G}, {net, G}}, to_nobody({gateway, G}, W))},
    started({gateway, G}, earlier(G, Killed));
fault({kill, Process}, W) ->
    started(Process, W#world{queues = to_nobody(Process, W)});
fault({'end', G}, W = #world{options = Options, worlds = Worlds, journals = Journals, queues = Queues}) ->
    #{G := World} = Worlds,
    W#world{worlds = Worlds#{G := ended},
            queues = maps:without([{{gateway, G}, {net, G}}, {{net, G}, {gateway, G}}], Queues),
            journals = case Options of #{journal := true} -> Journals#{G => World}; _ -> Journals end};
fault({anew, G}, W = #world{worlds = Worlds, oracles = Oracles}) ->
    W#world{worlds = Worlds#{G := oracle:new(maps:get(G, Oracles))}};
fault(take_over, W = #world{store = Store}) ->
    taken_over(Store, callers(W), W);
%% From now on, the other node gets no writes.
fault(cut, W = #world{store = Store, timers = Timers, now = Now}) ->
    W#world{standby = {behind, Store, callers(W)}, timers = Timers#{{node, pair, alone} => Now + ?ALONE}}.

%% From now on, late and recently sent messages belong to an earlier run.
earlier(G, W = #world{options = #{fence := _}, late = Late, sent = Sent}) ->
    Earlier = fun({Of, Datagram, Until}) -> {Of, Datagram, case Of of G -> infinity; _ -> Until end} end,
    W#world{late = lists:usort([Earlier(L) || L <- Late] ++ [Earlier(S) || S = {Of, _, _} <- Sent, Of =:= G]),
            sent = [S || S = {Of, _, _} <- Sent, Of =/= G]};
earlier(_, W) ->
    W.

to_nobody(Process, #world{queues = Queues}) ->
    maps:filter(fun({_, To}, _) -> To =/= Process end, Queues).

%% All processes of a node end, and the other node starts them from its copy of the store. It doesn't know people who
%% have called since the copy. Messages to gateways may still arrive.
taken_over(Store, Known, W = #world{people = People, queues = Queues, late = Late, now = Now, gateways = Gateways}) ->
    Sent = [{G, Datagram, Now + ?QUIET} || {{_, {net, G}}, Datagrams} <- maps:to_list(Queues), Datagram <- Datagrams],
    Rows = maps:from_list([{Id, lobby_person:restored(Row)} || {{lobby_members, Id}, Row} <- maps:to_list(Store)]),
    Ended = W#world{store = Store, queues = #{}, timers = #{}, loads = #{}, rooms = #{}, late = Late ++ Sent, unanswered = [],
                    people = maps:merge(maps:with(Known, People), Rows), standby = copied},
    lists:foldl(fun started/2, lists:foldl(fun earlier/2, Ended, maps:keys(Gateways)),
                [{gateway, G} || G <- lists:sort(maps:keys(Gateways))]
                ++ [{room, R} || {lobby_rooms, R} <- lists:sort(maps:keys(Store))]
                ++ [{person, Id} || Id <- callers(Ended)]).

%% Starts a process from the store.
started({person, Id}, W = #world{people = People, store = Store}) ->
    case Store of
        #{{lobby_members, Id} := Row} ->
            invited(Id, handled({person, Id}, again, W#world{people = People#{Id := lobby_person:restored(Row)}}));
        %% The person wasn't in a room yet, and joins again.
        #{} ->
            #{Id := Person} = People,
            handled({person, Id}, {join, {joins, Id}}, W#world{people = People#{Id := lobby_person:new(lobby_person:row(Person))}})
    end;
started({room, R}, W = #world{rooms = Rooms, store = Store, run = Run}) ->
    Core = lobby_room_core:new(#{name => R, run => Run}),
    Rows = [Row || {{lobby_members, _}, Row = #{room := In}} <- lists:sort(maps:to_list(Store)), In =:= R],
    handled({room, R}, {start, maps:get({lobby_rooms, R}, Store, none), Rows},
            W#world{rooms = Rooms#{R => Core}, run = Run + 1, timers = maps:remove({room, R, retry}, W#world.timers)});
started({gateway, G}, W = #world{gateways = Gateways, store = Store, options = Options, run = Run}) ->
    Core = lobby_gateway_core:new(#{
        config => config(G, Options), sender => {Run, 2945}, first => 1000 * Run,
        settled => case is_pair(Options) of true -> 1000; false -> 0 end,
        kept => maps:get({lobby_gateways, G}, Store, none),
        entries => [{T, Entry} || {{lobby_terminations, {In, T}}, Entry} <- lists:sort(maps:to_list(Store)), In =:= G]}),
    Earlier = [Request || {{lobby_requests, {In, _}}, Request} <- lists:sort(maps:to_list(Store)), In =:= G],
    Timers = maps:filter(fun({Kind, Name, _}, _) -> {Kind, Name} =/= {gateway, G} end, W#world.timers),
    handled({gateway, G}, {start, Earlier}, W#world{gateways = Gateways#{G => Core}, run = Run + 1, timers = Timers,
                                         loads = maps:remove(G, W#world.loads)}).

%%% Receiving messages.

received({net, G}, _, Datagram, W = #world{worlds = Worlds, oracles = Oracles}) ->
    case {is_stale(G, Datagram, W), Worlds} of
        {true, #{G := World}} when World =/= ended ->
            %% The gateway answers the check that accompanies a retransmission.
            {[Reply], _} = oracle:run(maps:get(G, Oracles), World, lobby_h248:check()),
            send({net, G}, {gateway, G}, Reply, W);
        {_, _} -> passed(G, Datagram, W)
    end;
received({gateway, G}, {net, G}, Datagram, W) ->
    {ok, Message} = lobby_h248:decode(Datagram),
    handled({gateway, G}, {received, Message}, W);
received({phone, Id}, _, {Room, Local}, W) -> invited(Id, Room, Local, W);
received({room, R}, _, {holdings, Holdings}, W = #world{store = Store}) ->
    Others = maps:from_list([{Id, Row} || #{member := Id} <- Holdings, {ok, Row} <- [maps:find({lobby_members, Id}, Store)]]),
    handled({room, R}, {holdings, Holdings, Others}, W);
received({person, Id}, {phone, Id}, hung_up, W) -> left(Id, W);
received({gateway, G}, {gateway, G}, {durable, Number}, W) -> answered_to([{durable, G, Number}], W);
received(Process, _, Message, W) -> handled(Process, Message, W).

passed(G, Datagram, W) ->
    case is_stale(G, Datagram, W) of
        true -> W;
        false -> run(G, Datagram, fenced(G, number(Datagram), W))
    end.

%% Forgets late datagrams that the fence would drop. Gateways with a fence never restart from scratch here.
fenced(G, Number, W = #world{options = #{fence := Fence}, worlds = Worlds, fences = Fences, late = Late})
  when Fence =/= ignored ->
    Matters = fun({Of, Sent, _}) -> Of =/= G orelse number(Sent) >= Number end,
    case Worlds of
        #{G := ended} -> W;
        #{} -> W#world{fences = Fences#{G => Number}, late = lists:filter(Matters, Late)}
    end;
fenced(_, _, W) ->
    W.

is_stale(G, Datagram, #world{fences = Fences}) ->
    number(Datagram) < maps:get(G, Fences, 0).

run(G, Datagram, W = #world{worlds = Worlds, oracles = Oracles}) ->
    case Worlds of
        #{G := ended} -> W;
        #{G := World} ->
            {Replies, Next} = oracle:run(maps:get(G, Oracles), World, Datagram),
            lists:foldl(fun(Reply, Acc) -> send({net, G}, {gateway, G}, Reply, Acc) end,
                        W#world{worlds = Worlds#{G := Next}}, Replies)
    end.

sent(G, Message, W = #world{options = #{fence := Fence}, now = Now, sent = Sent}) ->
    Others = [Other || Other = {Of, Was, _} <- Sent, {Of, Was} =/= {G, Message}],
    Until = case Fence of whenever -> infinity; _ -> Now + ?QUIET end,
    W#world{sent = lists:sort([{G, Message, Until} | Others])};
sent(_, _, W) ->
    W.

%% Returns the number in the name of a datagram's sender.
number(Datagram) ->
    {match, [Number]} = re:run(Datagram, "<(\\d+)\\.", [{capture, all_but_first, list}]),
    list_to_integer(Number).

send(From, To, Message, W = #world{queues = Queues}) ->
    W#world{queues = Queues#{{From, To} => maps:get({From, To}, Queues, []) ++ [Message]}}.

%%% Phones.

%% A restarted process of a call notifies its phone of the gateway's media address.
invited(Id, W = #world{store = Store}) ->
    case Store of
        #{{local, Id} := Local, {lobby_members, Id} := #{room := Room}} -> send({person, Id}, {phone, Id}, {Room, Local}, W);
        #{} -> W
    end.

%% The phone sends to this address from now on, and acknowledges it. A phone that has hung up reports that.
invited(Id, Room, Local, W = #world{phones = Phones, people = People}) ->
    case {Phones, People} of
        {#{Id := gone}, #{Id := _}} -> send({phone, Id}, {person, Id}, hung_up, W);
        {#{Id := gone}, #{}} -> W;
        {#{}, _} ->
            Told = W#world{phones = Phones#{Id => target(Local, W)}},
            lists:foldl(fun(Person, Acc) -> asks(lobby_person:row(Person), Acc) end,
                        tell_room(Room, {confirmed, Id, Local}, {phone, Id}, Told), maps:values(maps:with([Id], People)))
    end.

asks(#{acknowledged := true}, W) -> W;
asks(#{id := Id}, W) ->
    {_, Asked} = asked([{{unasked, Id}, false}], W),
    send({phone, Id}, {person, Id}, {change, {media, ack}, #{acknowledged => true}}, Asked).

target({Endpoint = {Address, _}, _}, #world{worlds = Worlds}) ->
    [G] = [G || G <- maps:keys(Worlds), address(G) =:= Address],
    {G, Endpoint}.

%%% Actions of processes.

handled({person, Id}, Event, W = #world{people = People}) ->
    case People of
        #{Id := Person} ->
            {Changed, Actions} = lobby_person:handle(Event, Person),
            Told = told(Id, Event, Person, W#world{people = People#{Id := Changed}}),
            lists:foldl(fun(Action, Acc) -> person_acts(Id, Action, Acc) end, Told, Actions);
        #{} -> W
    end;
handled({room, R}, Event, W = #world{rooms = Rooms, now = Now}) ->
    case Rooms of
        #{R := Core} ->
            {Changed, Actions} = lobby_room_core:handle(Event, Now, Core),
            room_acts(R, Actions, W#world{rooms = Rooms#{R := Changed}});
        #{} -> W
    end;
handled({gateway, G}, Event, W = #world{gateways = Gateways, now = Now}) ->
    #{G := Core} = Gateways,
    {Changed, Actions} = lobby_gateway_core:handle(Event, Now, Core),
    Acted = lists:foldl(fun(Action, Acc) -> gateway_acts(G, Action, Acc) end, W#world{gateways = Gateways#{G := Changed}}, Actions),
    %% Without another node, stored requests are durable immediately.
    Durable = [Kept || Kept = {durable, _} <- Actions, W#world.standby =:= none],
    lists:foldl(fun(Kept, Acc) -> handled({gateway, G}, Kept, Acc) end, Acted, Durable).

%% A call notifies its phone of a new media address, and notifies its room again if the phone already sends to it.
told(Id, {report, Room, {holds, _, Local, Everywhere}}, Person, W = #world{store = Store, phones = Phones}) ->
    case {lobby_person:row(Person), Store} of
        {#{room := Room}, #{{local, Id} := Local}} ->
            case {Everywhere, target(Local, W), Phones} of
                {false, Target, #{Id := Target}} -> tell_room(Room, {confirmed, Id, Local}, {person, Id}, W);
                _ -> W
            end;
        {#{room := Room}, _} -> send({person, Id}, {phone, Id}, {Room, Local}, put_in({local, Id}, Local, W));
        {_, _} -> W
    end;
told(_, _, _, W) -> W.

put_in(Key, Value, W = #world{store = Store}) -> W#world{store = Store#{Key => Value}}.
delete(Key, W = #world{store = Store}) -> W#world{store = maps:remove(Key, Store)}.

person_acts(_, {store, Row = #{id := Id}}, W) -> put_in({lobby_members, Id}, Row, W);
person_acts(_, {delete, Id}, W) -> delete({local, Id}, delete({lobby_members, Id}, W));
person_acts(Id, {admit, R, Id, From}, W = #world{store = Store}) ->
    Prefer = case Store of #{{lobby_rooms, From} := #{gateway := Gateway}} -> Gateway; #{} -> none end,
    tell_room(R, {admit, Id, From, Prefer}, {person, Id}, W);
person_acts(Id, {want, R, Row}, W) -> tell_room(R, {want, Row}, {person, Id}, W);
person_acts(Id, {gone, R, Id}, W) -> tell_room(R, {gone, Id}, {person, Id}, W);
person_acts(_, {answer, {asked, Asked}, {ok, _}}, W) -> answered_to(Asked, W);
person_acts(Id, {answer, {joins, Id}, {error, _}}, W = #world{people = People}) ->
    W#world{people = maps:remove(Id, People)};
person_acts(_, {answer, _, _}, W) -> W.

%% Sends an event to a room, as `lobby_room' does. Starts the room if the event may create it, or if the room is stored.
tell_room(R, Event, From, W = #world{rooms = Rooms, store = Store, options = Options}) ->
    IsNew = lists:member(element(1, Event), [admit, want, rules]),
    case is_map_key(R, Rooms) orelse IsNew orelse is_map_key({lobby_rooms, R}, Store) of
        true when is_map_key(R, Rooms) -> send(From, {room, R}, Event, W);
        true when is_map_key({lobby_rooms, R}, Store) -> send(From, {room, R}, Event, started({room, R}, W));
        %% A room has its first rules from the beginning.
        true ->
            Rules = {rules, [], set, rules(Options), #{kept => true}},
            send(From, {room, R}, Event, handled({room, R}, Rules, started({room, R}, W)));
        false -> W
    end.

room_acts(_, [], W) -> W;
room_acts(R, [stop | Rest], W) ->
    Stopped = #world{rooms = Rooms, timers = Timers} = room_acts(R, Rest, delete({lobby_rooms, R}, W)),
    Stopped#world{rooms = maps:remove(R, Rooms), timers = maps:remove({room, R, retry}, Timers),
                  queues = to_nobody({room, R}, Stopped)};
room_acts(R, [{place, Ids, Prefer, Except} | Rest], W = #world{loads = Loads}) ->
    Others = [{Handle, Load} || {Handle, Load} <- lists:sort(maps:values(Loads)), Handle =/= Except],
    {Handle, Placed} = first(R, Ids, lobby_placement:ranked(length(Ids), Prefer, Others), W),
    handled({room, R}, {placed, Handle}, room_acts(R, Rest, Placed));
room_acts(R, [{reserve, Handle, Ids} | Rest], W) ->
    {Result, Reserved} = reserve(Handle, R, Ids, W),
    handled({room, R}, {reserved, Result}, room_acts(R, Rest, Reserved));
room_acts(R, [Action | Rest], W) ->
    room_acts(R, Rest, room_act(R, Action, W)).

first(_, _, [], W) -> {none, W};
first(R, Ids, [Handle | Rest], W) ->
    case reserve(Handle, R, Ids, W) of
        {true, Reserved} -> {Handle, Reserved};
        {false, _} -> first(R, Ids, Rest, W)
    end.

reserve(Handle = {G, _}, R, Ids, W) ->
    Reserved = #world{store = Store} = handled({gateway, G}, {reserve, reserve, Handle, R, Ids}, W),
    {maps:get(reply, Store), delete(reply, Reserved)}.

room_act(R, {save, Kept}, W) -> put_in({lobby_rooms, R}, Kept, W);
room_act(R, {request, H = {G, _}, Reference, Action, Ids}, W) ->
    send({room, R}, {gateway, G}, {request, H, R, Reference, Action, Ids}, W);
room_act(R, {unanswered, H = {G, _}, Reference}, W) -> send({room, R}, {gateway, G}, {unanswered, H, R, Reference}, W);
room_act(R, {holdings, H = {G, _}}, W) -> send({room, R}, {gateway, G}, {holdings, H, R}, W);
room_act(R, {seats, H = {G, _}, Ids}, W) -> send({room, R}, {gateway, G}, {seats, H, R, Ids}, W);
room_act(R, {release, H = {G, _}, T, To}, W) -> send({room, R}, {gateway, G}, {release, H, T, To}, W);
room_act(R, {'end', H = {G, _}, Places}, W) -> send({room, R}, {gateway, G}, {'end', H, Places}, W);
room_act(R, {ask, From, Row = #{id := Id, moved := Moved}, Gateway}, W = #world{rooms = Rooms, store = Store}) ->
    case is_map_key(From, Rooms) orelse is_map_key({lobby_rooms, From}, Store) of
        true -> tell_room(From, {ask, Row, Gateway}, {room, R}, W);
        false -> send({room, R}, {room, R}, {left, Id, Moved, {none, none}}, W)
    end;
room_act(R, {left, To, Id, Moved, Given}, W) -> tell_room(To, {left, Id, Moved, Given}, {room, R}, W);
room_act(R, {admitted, Id, Result}, W) -> tell_person(Id, {admitted, R, Result}, R, W);
room_act(R, {report, Id, Report}, W) -> tell_person(Id, {report, R, Report}, R, W);
room_act(_, {reply, Asked, ok}, W) -> answered_to(Asked, W);
room_act(R, {retry, _}, W = #world{now = Now}) -> timed({room, R, retry}, Now + 250, W);
room_act(_, _, W) -> W.

tell_person(Id, Event, R, W = #world{people = People}) ->
    case is_map_key(Id, People) of
        true -> send({room, R}, {person, Id}, Event, W);
        false -> W
    end.

gateway_acts(G, {send, Message}, W) ->
    case lobby_h248:check() of
        Message -> W;
        _ -> send({gateway, G}, {net, G}, Message, sent(G, Message, W))
    end;
gateway_acts(_, {durable, _}, W = #world{standby = none}) -> W;
gateway_acts(G, Kept = {durable, _}, W) -> send({gateway, G}, {gateway, G}, Kept, W);
gateway_acts(G, {keep, Kept}, W) -> put_in({lobby_gateways, G}, Kept, W);
gateway_acts(G, {request, Number, none}, W) -> delete({lobby_requests, {G, Number}}, W);
gateway_acts(G, {request, Number, Request}, W) -> put_in({lobby_requests, {G, Number}}, Request, W);
gateway_acts(G, {entry, {put, T, Entry}}, W) -> put_in({lobby_terminations, {G, T}}, Entry, W);
gateway_acts(G, {entry, {delete, T}}, W) -> delete({lobby_terminations, {G, T}}, W);
gateway_acts(G, {tell, R, Message}, W = #world{rooms = Rooms}) ->
    case is_map_key(R, Rooms) of true -> send({gateway, G}, {room, R}, Message, W); false -> W end;
gateway_acts(_, {reply, reserve, Reply}, W) -> put_in(reply, Reply, W);
gateway_acts(_, {reply, nobody, ok}, W) -> W;
gateway_acts(G, {timer, Timer, infinity}, W) -> timed({gateway, G, Timer}, infinity, W);
gateway_acts(G, {timer, Timer, 0}, W) -> ran_out({gateway, G, Timer}, W);
gateway_acts(G, {timer, Timer, Time}, W = #world{now = Now}) -> timed({gateway, G, Timer}, Now + Time, W);
gateway_acts(G, {deadline, Time}, W) -> timed({gateway, G, transactions}, Time, W);
gateway_acts(G, {load, none}, W = #world{loads = Loads}) -> W#world{loads = maps:remove(G, Loads)};
gateway_acts(G, {load, Load}, W = #world{loads = Loads, gateways = Gateways}) ->
    W#world{loads = Loads#{G => {lobby_gateway_core:handle_of(maps:get(G, Gateways)), Load}}};
gateway_acts(_, _, W) -> W.

timed(Key, infinity, W = #world{timers = Timers}) -> W#world{timers = maps:remove(Key, Timers)};
timed(Key, Due, W = #world{timers = Timers}) -> W#world{timers = Timers#{Key => Due}}.

%%% The promises.

%% Returns the flows that are open on a proved gateway to which the talker's phone sends. Listeners hear everything that
%% any gateway sends to their phones.
heard(#world{worlds = Worlds, oracles = Oracles, phones = Phones}) ->
    lists:usort([{Talker, Listener}
                 || {G, World} <- maps:to_list(Worlds), World =/= ended, Oracle <- [maps:get(G, Oracles)],
                    Flows <- [oracle:flows(Oracle, World)], Flows =/= [],
                    Of <- [persons(Oracle, World)], Terminations <- [oracle:terminations(Oracle, World)],
                    {From, To} <- Flows, #{From := Talker, To := Listener} <- [Of],
                    #{From := #{port := Port}} <- [Terminations],
                    maps:get(Talker, Phones, none) =:= {G, {address(G), Port}}]).

%% Returns the owner of each termination, according to its Remote.
persons(Oracle, World) ->
    maps:from_list([{T, person(binary_to_integer(Host), binary_to_integer(Port))}
                    || {T, {<<"10.0.0.", Host/binary>>, Port}} <- maps:to_list(oracle:remotes(Oracle, World))]).

%% Returns the broken promises: a person is heard against a promise or, when no message or timer is pending,
%% `left_over/1' finds something wrong.
broken(W) ->
    case [{Promise, Flow} || Flow <- heard(W), Promise <- broken_by(Flow, W)] of
        [] -> case deliveries(W) ++ timeouts(W) of [] -> resting(W); _ -> [] end;
        Broken -> Broken
    end.

broken_by({Id, Id}, _) -> [himself];
broken_by({Talker, Listener}, W) ->
    [isolated || is_promised({isolated, Talker}, true, W) orelse is_promised({isolated, Listener}, true, W)]
        ++ [waiting || is_promised({waiting, Talker}, true, W) orelse is_promised({waiting, Listener}, true, W)]
        ++ [muted || is_promised({muted, Talker}, true, W)]
        ++ [unasked || is_promised({unasked, Listener}, true, W)]
        ++ ruled_out(Talker, Listener, [R || R <- rooms(Talker, W), lists:member(R, rooms(Listener, W))], W).

is_promised(Key, Value, #world{promises = P}) -> promises:possible(Key, P) =:= [Value].

%% Returns `[rules]' if all possible rules and roles close the flow in all rooms in which both people may be, and
%% `[apart]' if there is no such room.
ruled_out(_, _, [], _) -> [apart];
ruled_out(Talker, Listener, Rooms, #world{promises = P}) ->
    [rules || not lists:any(fun({TalkerRole, ListenerRole, Rules}) ->
        lobby_rules:hears({Listener, ListenerRole}, {Talker, TalkerRole}, Rules)
    end, [{A, B, Rules} || A <- promises:possible({role, Talker}, P), B <- promises:possible({role, Listener}, P),
                           R <- Rooms, Rules <- promises:possible({rules, R}, P)])].

%% Returns the rooms in which a person may be, or all rooms if the call has ended. A node that takes over may not know
%% the person's moves.
rooms(Id, #world{store = Store, options = Options = #{rooms := All}, promises = P}) ->
    case {Store, is_pair(Options)} of
        {#{{lobby_members, Id} := #{room := Room, from := From}}, false} -> [Room, From] -- [none];
        {#{{lobby_members, Id} := _}, true} -> promises:possible({room, Id}, P);
        {#{}, _} -> All
    end.

%% A walk may end while messages are in flight. If no gateway is left, some always are.
at_rest(_, 0) -> [];
at_rest(W, Left) ->
    case deliveries(W) ++ timeouts(W) of
        [Event | _] -> at_rest(step(Event, W), Left - 1);
        [] -> resting(W)
    end.

%% Orphaned terminations are subtracted at the next audit.
resting(W = #world{rooms = Rooms}) ->
    case left_over(W) of
        [] -> [];
        _ ->
            Watch = fun(R, Acc) -> handled({room, R}, watch, Acc) end,
            left_over(rested(lists:foldl(Watch, W, lists:sort(maps:keys(Rooms))), 2000))
    end.

rested(W, 0) -> W;
rested(W, Left) ->
    case deliveries(W) ++ timeouts(W) of
        [Event | _] -> rested(step(Event, W), Left - 1);
        [] -> W
    end.

%% Returns what is wrong: members who are missing on the gateways, or people who shouldn't be there, for example. While
%% no gateway has seats for a room, its members wait.
left_over(W = #world{store = Store, people = People, rooms = Rooms}) ->
    Members = [Id || {{lobby_members, Id}, _} <- maps:to_list(Store)],
    There = there(W),
    Missing = [Id || Id <- Members -- There, has_seats(room(Id, W), W)],
    Waiting = (Members -- There) -- Missing,
    [{missing, Missing} || Missing =/= []] ++ [{stray, There -- Members} || There -- Members =/= []]
        ++ [{stays, G} || {G, {_, #{draining := true, contexts := Contexts}}} <- maps:to_list(W#world.loads), Contexts > 0,
                          {Other, {_, #{draining := false}}} <- maps:to_list(W#world.loads), lists:member(Other, running(W))]
        ++ [{forgotten, Members -- maps:keys(People)} || Members -- maps:keys(People) =/= []]
        ++ [{disagrees, R} || Waiting =:= [], {R, Core} <- maps:to_list(Rooms), not lobby_room_core:agrees(Core)]
        ++ [{unanswered, Id} || Waiting =:= [], {Id, Person} <- maps:to_list(People), not lobby_person:is_settled(Person)].

room(Id, #world{store = Store}) ->
    #{{lobby_members, Id} := #{room := R}} = Store,
    R.

%% Returns the people for whom gateways have a termination.
there(W) -> lists:append([there(G, W) || G <- running(W)]).

there(G, #world{worlds = Worlds, oracles = Oracles}) -> maps:values(persons(maps:get(G, Oracles), maps:get(G, Worlds))).

%% Returns whether a gateway in service has seats for all members of a room.
has_seats(R, W = #world{loads = Loads, store = Store}) ->
    Members = [Id || {{lobby_members, Id}, #{room := In}} <- maps:to_list(Store), In =:= R],
    lists:any(fun({G, {_, #{max_terminations := Max}}}) -> length(there(G, W) -- Members) + length(Members) < Max end,
              [Load || Load = {G, _} <- maps:to_list(Loads), lists:member(G, running(W))]).

%%% Equivalent states.

%% Only the order of times and of growing numbers matters, not their values.
canonical(#world{people = People, rooms = Rooms, gateways = Gateways, timers = Timers, store = Store, standby = Standby,
                 worlds = Worlds, journals = Journals, late = Late, sent = Sent, fences = Fences, queues = Queues, calls = Calls, phones = Phones,
                 changes = Changes, faults = Faults, races = Races, promises = Promises, unanswered = Unanswered, now = Now}, Known) ->
    Rest = {Now, Timers, Late, Sent, Fences, Worlds, Journals, Calls, Phones, Changes, Faults, Races, Promises, Unanswered},
    Processes = lists:append([maps:to_list(Of) || Of <- [People, Rooms, Gateways]]),
    canonical:alike([Rest, Queues, Store, Standby | Processes],
                    1000000, Known).

-spec format(world()) -> iodata().
format(W = #world{people = People, phones = Phones, queues = Queues, promises = Promises, timers = Timers}) ->
    io_lib:format("heard ~p~nphones ~p~npromises ~p~nqueues ~p~ntimers ~p~npeople ~p~n",
                  [heard(W), Phones, Promises, Queues, Timers, [lobby_person:row(P) || P <- maps:values(People)]]).
