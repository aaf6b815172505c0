%%% @doc A conference as a value: the room's desired state, the gateway's known state, and the next request that
%%% reconciles them.
%%%
%%% The desired state consists of the members' rows (`lobby_person') and the room's rules. The room sends the action of
%%% `next/1', and passes the reply to `done/3', until `next/1' returns `settled'. So a change, a failure and a new
%%% gateway are all handled in the same way.
%%%
%%% A flow is open only if the rules open it and neither end is isolated; a muted talker's mode is SendOnly. No member
%%% is audible before the gateway has applied this. First, terminations of former members are subtracted, and members
%%% who may no longer talk or hear are silenced. Then flows are closed and opened. A single newcomer is added together
%%% with the Topology, several newcomers before it. A newcomer with a flow to be closed is added as Inactive, and
%%% activated once the flow is closed. A member from another room isn't added before that room has released the member,
%%% and a room releases only inactive members.
%%%
%%% The gateway's state is known from its replies. After an unexpected reply (except to a Subtract, which is sent
%%% again), or a request that may or may not have been run, this state counts as unknown: `doubt/1' schedules audits of
%%% the terminations, modes and flows.
-module(lobby_conference).

-export([new/0, want/2, leave/2, expel/2, cleared/4, set_rules/2, forget/1, resume/3, check/1, unblock/1]).
-export([next/1, done/3]).
-export([ids/1, persons/1, rules/1, context/1, asked/1, has/2, is_empty/1, missing/1, find/2, local/2, holding/2,
         flows/1, visible/1]).
-export_type([conference/0, step/0, event/0, held/0, place/0, holding/0, owner/0]).

-define(NO_FLOWS, sets:new([{version, 2}])).
%% The maximum number of commands with media in a request, and of other commands. An Add takes about 150 of a request's
%% 8,192 bytes, and its result takes as many of a reply's 16,000.
-define(MAX_ADDS, 24).
-define(MAX_COMMANDS, 60).
%% The size of the largest conference whose topology and modes each fit in a reply, even if all numbers have ten digits.
-define(MAX_AUDITED, 29).

%% Error codes which mean that a context doesn't exist, or that a termination isn't in it.
-define(IS_GONE(Code), (Code =:= 411 orelse Code =:= 430 orelse Code =:= 431 orelse Code =:= 435)).

-type id() :: lobby_rules:id().
-type row() :: lobby_person:row().
%% A member's termination on the gateway. `unknown' stands for any value.
-record(held, {termination :: lobby_h248:termination(), local :: lobby_h248:media(),
               remote :: lobby_h248:media() | unknown, mode :: lobby_h248:mode() | unknown}).
-opaque held() :: #held{}.
%% A termination to be subtracted, or all terminations of a context.
-type place() :: {lobby_h248:context(), lobby_h248:termination() | all}.
%% A termination that the gateway's process has noted for this room. `given': another room has released it to this room,
%% and it is still in that room's context.
-type holding() :: #{termination := lobby_h248:termination(), context := lobby_h248:context(), member := id(),
                     local := lobby_h248:media(), given := boolean()}.
%% Whether a termination belongs to this room or another one, according to the gateway's process.
-type owner() :: #{lobby_h248:termination() => own | other}.
%% A member from another room: that room is asked to release the member, has done so without a termination, or has
%% handed over a termination.
-type arrival() :: {asked | cleared, Moved :: pos_integer()} | {given, holding()}.

-record(conference, {members = [] :: [row()], rules = [] :: [lobby_rules:rule()],
                     context = new :: lobby_h248:context() | new, held = #{} :: #{id() => #held{}},
                     open = ?NO_FLOWS :: lobby_rules:flows(), leaving = [] :: [place()],
                     %% Whether the open flows are the desired flows. Comparing them takes a while in a large room.
                     agreed = true :: boolean(),
                     arriving = #{} :: #{id() => arrival()},
                     %% Members who have moved to other rooms, but whose terminations are still in this context.
                     departing = #{} :: #{id() => row()},
                     %% Members for whom the gateway has no capacity at the moment, and the media that the gateway
                     %% refused, by member.
                     blocked = [] :: [id()], refused = #{} :: #{id() => lobby_h248:media()},
                     %% The audits that precede all other requests.
                     doubts = [] :: [inventory | topology]}).
-opaque conference() :: #conference{}.
%% The purpose of a request.
-type step() :: {subtract, [place()]} | {modify, [{id(), lobby_h248:mode()}]}
                | {connect, lobby_rules:flows()} | {add, [{row(), lobby_h248:mode()}], lobby_rules:flows()}
                | {move, {id(), lobby_h248:mode()}, lobby_rules:flows()} | {settle, [row()]} | inventory | topology.
%% `refused': the gateway refused the member's media with this code; the last element has the media that it still uses.
%% `full': the gateway has no capacity for the member at the moment. `failed': a request failed, or its reply was
%% unexpected. `counts': the number of packets that each termination has received.
-type event() :: {refused, id(), Code :: pos_integer(), lobby_h248:media() | none} | {full, id()} | repaired | strays
               | failed | {counts, #{lobby_h248:termination() => non_neg_integer()}}.

%% @doc Returns a conference without members, which is on no gateway.
-spec new() -> conference().
new() ->
    #conference{}.

%%% The desired state.

%% @doc Adds or replaces a member's row. A member from another room gets a termination only after `cleared/4'.
-spec want(row(), conference()) -> conference().
want(Row = #{id := Id, from := From, moved := Moved}, C = #conference{held = Held, arriving = Arriving}) ->
    Came = case Arriving of
        _ when is_map_key(Id, Held); From =:= none -> Arriving;
        #{Id := {Is, Of}} when Is =:= given; Of =:= Moved -> Arriving;
        #{} -> Arriving#{Id => {asked, Moved}}
    end,
    With = (unblock(Id, C))#conference{members = replaced(Row, C#conference.members), arriving = Came},
    case maps:take(Id, C#conference.departing) of
        %% The member returns before the old termination has been released. The member's flows were no longer tracked.
        {_, Departing} -> doubt(With#conference{departing = Departing});
        error -> agree(is_map_key(Id, Held) andalso layers(row(Id, C)) =/= layers(Row), With)
    end.

layers(#{role := Role, isolated := Isolated, waiting := Waiting}) -> {Role, Isolated, Waiting};
layers(none) -> none.

replaced(Row = #{id := Id}, Rows) ->
    case lists:any(fun(#{id := Other}) -> Other =:= Id end, Rows) of
        true -> [case Other of #{id := Id} -> Row; _ -> Other end || Other <- Rows];
        false -> Rows ++ [Row]
    end.

%% @doc Removes a member who has moved to another room, or whose call has ended. Rules that name a member who has moved
%% stay, because the member may come back.
-spec leave(row() | {ended, id()}, conference()) -> conference().
leave({ended, Id}, C = #conference{rules = Rules}) ->
    expel(Id, C#conference{rules = lobby_rules:forget(Id, Rules)});
leave(Row = #{id := Id}, C = #conference{held = Held, departing = Departing}) ->
    Left = without(Id, C),
    case is_map_key(Id, Held) of
        true -> Left#conference{departing = Departing#{Id => Row}};
        false -> expel(Id, Left)
    end.

%% Removes a member's row and flows. A former member's flows no longer matter.
without(Id, C = #conference{members = Members, open = Open, agreed = Agreed}) ->
    Without = (unblock(Id, C))#conference{members = [Row || Row = #{id := Other} <- Members, Other =/= Id],
                                          open = flows_without(Id, Open),
                                          refused = maps:remove(Id, C#conference.refused)},
    %% Without this member, the open flows may be the desired ones.
    agree(not Agreed, Without).

flows_without(Id, Flows) ->
    sets:filter(fun({A, B}) -> A =/= Id andalso B =/= Id end, Flows).

%% @doc Removes a member, and schedules the subtraction of the member's terminations.
-spec expel(id(), conference()) -> conference().
expel(Id, C0) ->
    C = #conference{held = Held, arriving = Arriving, departing = Departing} = without(Id, C0),
    ending(places(Id, C), C#conference{held = maps:remove(Id, Held), arriving = maps:remove(Id, Arriving),
                                       departing = maps:remove(Id, Departing)}).

ending(Places, C = #conference{leaving = Leaving}) -> C#conference{leaving = Places ++ Leaving}.

places(Id, #conference{context = Context, held = Held, arriving = Arriving}) ->
    [{Context, T} || #{Id := #held{termination = T}} <- [Held]] ++
        [{From, T} || #{Id := {given, #{context := From, termination := T}}} <- [Arriving]].

%% @doc Notes that a member's old room has released the member, with a termination on the same gateway or without one.
-spec cleared(id(), Moved :: pos_integer(), holding() | none, conference()) -> conference().
cleared(Id, Moved, Given, C = #conference{arriving = Arriving}) ->
    case Arriving of
        #{Id := {asked, Moved}} ->
            C#conference{arriving = Arriving#{Id := case Given of none -> {cleared, Moved}; _ -> {given, Given} end}};
        #{} -> C
    end.

%% @doc Replaces the rules.
-spec set_rules([lobby_rules:rule()], conference()) -> conference().
set_rules(Rules, C) ->
    agree(true, C#conference{rules = Rules}).

%% @doc Forgets the gateway's state, because the gateway was lost or the conference moves to another one. Members who
%% were leaving have left.
-spec forget(conference()) -> conference().
forget(C = #conference{arriving = Arriving}) ->
    Still = maps:filtermap(fun(Id, Arrival) -> still_arriving(Arrival, row(Id, C)) end, Arriving),
    C#conference{context = new, held = #{}, open = ?NO_FLOWS, agreed = true, leaving = [], departing = #{},
                 blocked = [], doubts = [], arriving = Still}.

still_arriving({given, _}, #{moved := Moved}) -> {true, {cleared, Moved}};
still_arriving({given, _}, none) -> false;
still_arriving(_, _) -> true.

%% @doc Restores the state of a restarted room from the terminations that the gateway's process has noted for it.
%% `Others' has the rows of people in other rooms: their terminations are silenced, and handed over to those rooms. A
%% termination is subtracted if its member has no row, if it is in another context of this room, or if it was given to
%% this room although its member is elsewhere.
-spec resume([holding()], Others :: #{id() => row()}, conference()) -> conference().
resume(Holdings, Others, C) ->
    Context = lists:last([new | lists:sort([In || #{context := In, given := false} <- Holdings])]),
    Resumed = lists:foldl(fun(Holding, Acc) -> resumed(Holding, Others, Acc) end,
                          (forget(C))#conference{context = Context}, Holdings),
    doubt(Resumed).

resumed(Holding = #{context := Context, member := Id, given := false}, Others,
        C = #conference{context = Context, held = Held, departing = Departing, arriving = Arriving}) ->
    Has = C#conference{held = Held#{Id => held(Holding, unknown)}, arriving = maps:remove(Id, Arriving)},
    case {row(Id, C), Others} of
        {#{}, _} -> Has;
        {none, #{Id := Row}} -> Has#conference{departing = Departing#{Id => Row}};
        {none, _} -> expel(Id, Has)
    end;
resumed(Holding = #{termination := T, context := In, member := Id, given := Given}, _, C) ->
    case Given andalso row(Id, C) of
        #{} -> C#conference{arriving = (C#conference.arriving)#{Id => {given, Holding}}};
        _ -> ending([{In, T}], C)
    end.

held(#{termination := T, local := Local}, Mode) ->
    #held{termination = T, local = Local, remote = unknown, mode = Mode}.

%% Schedules audits of everything before the next change.
doubt(C) ->
    C#conference{doubts = [inventory, topology]}.

%% @doc Schedules audits that compare the gateway's state with the known state, if the conference has a context.
-spec check(conference()) -> conference().
check(C = #conference{context = new}) -> C;
check(C) -> doubt(C).

%% @doc Allows another attempt to add the members for whom the gateway had no capacity.
-spec unblock(conference()) -> conference().
unblock(C) ->
    C#conference{blocked = []}.

unblock(Id, C = #conference{blocked = Blocked}) ->
    C#conference{blocked = lists:delete(Id, Blocked)}.

block(Id, C = #conference{blocked = Blocked}) ->
    C#conference{blocked = [Id | lists:delete(Id, Blocked)]}.

%%% The known state.

%% @doc Returns the members' ids.
-spec ids(conference()) -> [id()].
ids(#conference{members = Members}) -> [Id || #{id := Id} <- Members].

%% @doc Returns the members' rows.
-spec persons(conference()) -> [row()].
persons(#conference{members = Members}) -> Members.

%% @doc Returns the rules about who hears whom.
-spec rules(conference()) -> [lobby_rules:rule()].
rules(#conference{rules = Rules}) -> Rules.

%% @doc Returns the conference's context on the gateway, or `new' if it has none.
-spec context(conference()) -> lobby_h248:context() | new.
context(#conference{context = Context}) -> Context.

%% @doc Returns the rows of the members whom their old rooms haven't released yet.
-spec asked(conference()) -> [row()].
asked(C = #conference{arriving = Arriving}) ->
    [row(Id, C) || {Id, {asked, _}} <- maps:to_list(Arriving)].

%% @doc Returns whether the gateway may still have a termination for this person in this conference.
-spec has(id(), conference()) -> boolean().
has(Id, #conference{held = Held, departing = Departing, leaving = Leaving}) ->
    is_map_key(Id, Held) orelse is_map_key(Id, Departing) orelse Leaving =/= [].

%% @doc Returns whether the conference has neither members nor terminations.
-spec is_empty(conference()) -> boolean().
is_empty(#conference{members = Members, held = Held, leaving = Leaving}) ->
    Members =:= [] andalso map_size(Held) =:= 0 andalso Leaving =:= [].

%% @doc Returns the ids of members who need a termination and have none. Members whom another room hasn't released don't
%% count.
-spec missing(conference()) -> [id()].
missing(#conference{members = Members, held = Held, arriving = Arriving}) ->
    [Id || #{id := Id} <- Members, not is_map_key(Id, Held), not is_asked(Id, Arriving)].

is_asked(Id, Arriving) ->
    case Arriving of #{Id := {asked, _}} -> true; #{} -> false end.

%% @doc Returns a member's row, and the member's termination or `none'.
-spec find(id(), conference()) -> {row(), lobby_h248:termination() | none} | none.
find(Id, C = #conference{held = Held}) ->
    case {row(Id, C), Held} of
        {none, _} -> none;
        {Row, #{Id := #held{termination = T}}} -> {Row, T};
        {Row, #{}} -> {Row, none}
    end.

row(Id, #conference{members = Members}) ->
    case [Row || Row = #{id := Other} <- Members, Other =:= Id] of
        [Row] -> Row;
        [] -> none
    end.

%% @doc Returns the address at which the gateway receives a member's media, and their format.
-spec local(id(), conference()) -> {ok, lobby_h248:media()} | none.
local(Id, #conference{held = Held}) ->
    case Held of
        #{Id := #held{local = Local}} -> {ok, Local};
        #{} -> none
    end.

%% @doc Returns everything that clients can see, for comparison.
-spec visible(conference()) -> term().
visible(#conference{members = Members, rules = Rules, context = Context, held = Held, open = Open}) ->
    {Members, Rules, Context, Held, Open}.

%% @doc Returns a departing member's termination, for the member's new room.
-spec holding(id(), conference()) -> holding().
holding(Id, #conference{context = Context, held = Held}) ->
    #{Id := #held{termination = T, local = Local}} = Held,
    #{termination => T, context => Context, member => Id, local => Local, given => true}.

%% @doc Returns the flows that are open on the gateway according to its replies: both topology and modes allow them. A
%% mode that is unknown counts as allowing them.
-spec flows(conference()) -> lobby_rules:flows().
flows(#conference{open = Open, held = Held}) ->
    sets:filter(fun({Talker, Listener}) -> case Held of
        #{Talker := #held{mode = Says}, Listener := #held{mode = Hears}} ->
            lists:member(Says, [sendRecv, recvOnly, unknown])
                andalso lists:member(Hears, [sendRecv, sendOnly, unknown]);
        #{} -> true
    end end, Open).

%%% The next request.

%% @doc Returns the next step: a request; `release' if a termination can go to its member's new room; or `settled' if
%% the gateway has the desired state, except for what it refuses or has no capacity for, and for members whom another
%% room hasn't released.
-spec next(conference()) ->
          {{request, lobby_h248:action(), step()} | {release, row(), lobby_h248:termination()} | settled, conference()}.
next(C0) ->
    C = suspected(C0),
    Parts = [fun audit/1, fun subtract/1, fun silence/1, fun connect/1, fun move/1, fun add/1,
             fun settle/1, fun release/1],
    {next(Parts, C), C}.

%% A single member has no topology. That of a large conference may not fit into a reply, so all its flows count as open,
%% and the forbidden flows are closed again.
suspected(C = #conference{doubts = [inventory | Doubts], context = new}) ->
    suspected(C#conference{doubts = Doubts});
suspected(C = #conference{doubts = [topology], held = Held}) when map_size(Held) < 2; map_size(Held) > ?MAX_AUDITED ->
    agree(true, C#conference{open = lobby_topology:everyone([Id || #{id := Id} <- held_members(C)]), doubts = []});
suspected(C) ->
    C.

next([], _) ->
    settled;
next([Part | Parts], C = #conference{context = Context}) ->
    case Part(C) of
        none -> next(Parts, C);
        {request, Action, Step} -> {request, maps:merge(#{context => Context}, Action), Step};
        Release -> Release
    end.

audit(#conference{doubts = []}) ->
    none;
audit(#conference{doubts = [inventory | _], held = Held}) ->
    Words = [statistics | [media || map_size(Held) =< ?MAX_AUDITED]],
    {request, #{commands => [{audit, all, Words}]}, inventory};
%% The action also has an empty audit, as in `connect'.
audit(#conference{doubts = [topology], held = Held}) ->
    {_, #held{termination = T}, _} = maps:next(maps:iterator(Held)),
    {request, #{audit_topology => true, commands => [{audit, T, []}]}, topology}.

subtract(#conference{leaving = []}) ->
    none;
subtract(#conference{leaving = Leaving = [{Context, _} | _]}) ->
    Some = lists:sublist([Place || Place = {From, _} <- Leaving, From =:= Context], ?MAX_COMMANDS),
    {request, #{context => Context, commands => [{subtract_optional, T} || {_, T} <- Some]}, {subtract, Some}}.

%% Restricts the modes of members who may no longer talk or hear. Departing members may do neither.
silence(C = #conference{held = Held, departing = Departing}) ->
    People = [{Id, mode(Row)} || Row = #{id := Id} <- held_members(C)]
        ++ [{Id, inactive} || Id <- maps:keys(Departing)],
    Less = [{T, Id, common(Mode, Wanted)} || {Id, Wanted} <- People,
                                             #{Id := #held{termination = T, mode = Mode}} <- [Held],
                                             common(Mode, Wanted) =/= Mode],
    case lists:sublist(Less, ?MAX_COMMANDS) of
        [] -> none;
        Some -> {request, #{commands => [{modify, T, #{mode => Mode}} || {T, _, Mode} <- Some]},
                 {modify, [{Id, Mode} || {_, Id, Mode} <- Some]}}
    end.

%% The gateway's reply to an action with only a Topology isn't valid Megaco, so the action also has an empty audit.
connect(#conference{agreed = true}) ->
    none;
connect(C = #conference{open = Open}) ->
    Ids = [Id || #{id := Id} <- held_members(C)],
    [Batch | _] = lobby_topology:changes(Ids, Open, wanted(held_members(C), C)),
    {request, #{topology => by_termination(Batch, C), commands => [{audit, termination(hd(Ids), C), []}]},
     {connect, lobby_topology:after_batch(Ids, Open, Batch)}}.

release(#conference{departing = Departing}) when map_size(Departing) =:= 0 -> none;
release(#conference{departing = Departing, held = Held}) ->
    {Id, Row, _} = maps:next(maps:iterator(Departing)),
    #{Id := #held{termination = T, mode = inactive}} = Held,
    {release, Row, T}.

%% A termination that enters a context is connected both ways with all others, so the same action has its Topology.
move(C = #conference{arriving = Arriving, blocked = Blocked, held = Held}) ->
    case [Holding || {Id, {given, Holding}} <- maps:to_list(Arriving), not lists:member(Id, Blocked)] of
        [] -> none;
        [Holding = #{member := Id, termination := T} | _] ->
            {Triples, Flows} = entering(row(Id, C), C),
            Topology = by_termination(Triples, C#conference{held = Held#{Id => held(Holding, inactive)}}),
            {request, #{topology => Topology, commands => [{move, T, #{mode => inactive}}]},
             {move, {Id, inactive}, Flows}}
    end.

add(C = #conference{members = Members, blocked = Blocked, refused = Refused}) ->
    Ids = missing(C) -- Blocked,
    case [Row || Row = #{id := Id, media := Media} <- Members, lists:member(Id, Ids),
                 maps:get(Id, Refused, none) =/= Media] of
        [] -> none;
        [Row] -> add_one(Row, C);
        Rows -> add_some(lists:sublist(Rows, ?MAX_ADDS), C)
    end.

add_one(Row = #{id := Id}, C) ->
    {Triples, Flows} = entering(Row, C),
    First = first_mode(Triples, mode(Row)),
    Names = fun(Name) when Name =:= Id -> new; (Name) -> termination(Name, C) end,
    {request, #{topology => [{Names(A), Names(B), How} || {A, B, How} <- Triples],
                commands => [{add_optional, settings(Row, First)}]}, {add, [{Row, First}], Flows}}.

%% The gateway runs commands before triples. If it refuses a triple, for example because the other termination was
%% subtracted, the newcomer is in the context all the same, connected both ways with all others.
first_mode([], Mode) -> Mode;
first_mode(_, _) -> inactive.

add_some(Rows, C) ->
    New = [Id || #{id := Id} <- Rows],
    Everyone = lobby_topology:everyone([Id || #{id := Id} <- held_members(C)] ++ New),
    Flows = sets:filter(fun({A, B}) -> lists:member(A, New) orelse lists:member(B, New) end, Everyone),
    First = case wanted(Rows, Rows ++ held_members(C), C) of Flows -> fun mode/1; _ -> fun(_) -> inactive end end,
    {request, #{commands => [{add_optional, settings(Row, First(Row))} || Row <- Rows]},
     {add, [{Row, First(Row)} || Row <- Rows], Flows}}.

%% Returns the triples between a newcomer and the others, and the newcomer's open flows.
entering(Row = #{id := Id}, C) ->
    Others = held_members(C),
    Flows = wanted([Row], Others, C),
    {lobby_topology:entry(Id, [Other || #{id := Other} <- Others], Flows), Flows}.

%% Changes modes, addresses and formats that still differ.
settle(C = #conference{held = Held}) ->
    Differing = [{T, Row} || Row = #{id := Id} <- held_members(C), #{Id := Has = #held{termination = T}} <- [Held],
                             differs(Row, Has, C)],
    case lists:sublist(Differing, ?MAX_ADDS) of
        [] -> none;
        Some ->
            Commands = [{modify, T, settings(Row, mode(Row))} || {T, Row} <- Some],
            {request, #{commands => Commands}, {settle, [Row || {_, Row} <- Some]}}
    end.

differs(Row = #{id := Id, media := Media}, #held{remote = Remote, mode = Mode}, #conference{refused = Refused}) ->
    (Media =/= Remote andalso maps:get(Id, Refused, none) =/= Media) orelse mode(Row) =/= Mode.

settings(#{media := Media = {_, Format}}, Mode) ->
    #{mode => Mode, local => Format, remote => Media}.

%% Returns the desired mode of a member. A member who put the call on hold neither talks nor hears, so that the
%% conference doesn't hear music on hold.
mode(#{waiting := true}) -> inactive;
mode(Row = #{acknowledged := false}) -> common(mode(Row#{acknowledged := true}), recvOnly);
mode(#{direction := sendrecv, muted := false}) -> sendRecv;
mode(#{direction := sendrecv, muted := true}) -> sendOnly;
mode(#{direction := recvonly}) -> sendOnly;
mode(#{direction := sendonly}) -> inactive;
mode(#{direction := inactive}) -> inactive.

%% Returns the mode that allows what both modes allow. An unknown mode stays unknown if the other mode allows
%% everything.
common(unknown, sendRecv) -> unknown;
common(unknown, Mode) -> Mode;
common(sendRecv, Mode) -> Mode;
common(Mode, sendRecv) -> Mode;
common(Mode, Mode) -> Mode;
common(_, _) -> inactive.

held_members(#conference{members = Members, held = Held}) ->
    [Row || Row = #{id := Id} <- Members, is_map_key(Id, Held)].

wanted(Rows, #conference{rules = Rules}) ->
    lobby_rules:flows(heard(Rows), Rules).

%% Returns the desired flows between some members and others.
wanted(Some, Others, #conference{rules = Rules}) ->
    {As, Bs} = {heard(Some), heard(Others)},
    sets:union(lobby_rules:flows(As, Bs, Rules), lobby_rules:flows(Bs, As, Rules)).

heard(Rows) ->
    [{Id, Role} || #{id := Id, role := Role, isolated := false, waiting := false} <- Rows].

%% Checks again whether the open flows are the desired ones, if that may have changed.
agree(false, C) -> C;
agree(true, C = #conference{open = Open}) -> C#conference{agreed = Open =:= wanted(held_members(C), C)}.

by_termination(Triples, C) ->
    [{termination(A, C), termination(B, C), How} || {A, B, How} <- Triples].

termination(all, _) -> all;
termination(Id, #conference{held = Held}) -> (maps:get(Id, Held))#held.termination.

%%% The gateway's reply.

%% @doc Notes the result of a step. The first clause is for a termination that was released: another room has it now.
-spec done(step() | {released, id()}, {ok, lobby_h248:reply(), owner()} | {error, pos_integer() | busy | lost} | done,
           conference()) -> {[event()], conference()}.
done({released, Id}, done, C = #conference{held = Held, departing = Departing}) ->
    {[], ended(C#conference{held = maps:remove(Id, Held), departing = maps:remove(Id, Departing)})};
%% The gateway replied to the action of a step, or the request failed.
done(_, {error, _}, C) ->
    failed(C);
done(Step, {ok, Reply = #{results := Results}, Owners}, C) ->
    case {maps:get(error, Reply, none), Step} of
        {_, {subtract, Some}} -> subtracted(Some, Reply, C);
        {none, {move, Moved, Flows}} -> moved(Moved, Flows, Reply, C);
        {none, {add, New, Flows}} -> added(New, Flows, Reply, C);
        {none, {settle, Rows}} -> changed(Rows, Results, C);
        {none, {modify, Modes}} -> kept(Results, C, fun() -> {[], lists:foldl(fun set_mode/2, C, Modes)} end);
        {none, {connect, After}} -> kept(Results, C, fun() ->
            {[], agree(true, C#conference{open = flows_between(C#conference.members, After)})}
        end);
        {none, topology} -> kept(Results, C, fun() -> compared(maps:get(topology, Reply, []), C) end);
        {none, inventory} -> found(Results, Owners, C);
        {Code, inventory} when ?IS_GONE(Code) -> {[], gone(C)};
        {410, {add, New, Flows}} -> refused(New, Flows, Reply, C);
        {_, _} -> failed(C)
    end.

%% No later request relies on the failed one: audits of the gateway's state come first.
failed(C) ->
    {[failed], doubt(C)}.

%% The gateway ends a context when its last termination leaves.
ended(C = #conference{context = Context, held = Held, leaving = Leaving}) when map_size(Held) =:= 0 ->
    case lists:keymember(Context, 1, Leaving) of
        true -> C;
        false -> C#conference{context = new, doubts = []}
    end;
ended(C) ->
    C.

subtracted(Some, Reply = #{results := Results}, C = #conference{leaving = Leaving}) ->
    Codes = [Code || {_, _, {error, Code}} <- Results] ++ [Code || #{error := Code} <- [Reply]],
    case [Code || Code <- Codes, not ?IS_GONE(Code)] of
        [] when length(Results) >= length(Some); Codes =/= [] -> {[], ended(C#conference{leaving = Leaving -- Some})};
        _ -> {[failed], C}
    end.

kept(Results, C, Next) ->
    case [Code || {_, _, {error, Code}} <- Results] of
        [] -> Next();
        _ -> failed(C)
    end.

set_mode({Id, Mode}, C = #conference{held = Held}) ->
    case Held of
        #{Id := Has} -> C#conference{held = Held#{Id := Has#held{mode = Mode}}};
        #{} -> C
    end.

%% If the gateway refuses an Add, it also refuses the triples, because they name the termination that the Add would have
%% created.
refused(New, Flows, Reply = #{results := [{add, _, {error, _}}]}, C) -> added(New, Flows, Reply, C);
refused(_, _, _, C) -> failed(C).

added(New, Flows, #{context := Context, results := Results}, C) ->
    case [no_context || {add, _, {error, 411}} <- Results] of
        [] when length(Results) =:= length(New) ->
            {Events, Made} = lists:mapfoldl(fun added/2, C#conference{context = Context}, lists:zip(New, Results)),
            {lists:append(Events), ended(entered([Id || {#{id := Id}, _} <- New], Flows, Made))};
        _ when is_integer(Context), C#conference.context =:= new -> failed(C#conference{context = Context});
        _ -> failed(C)
    end.

%% Notes the open flows of newcomers. The flows between the others are unchanged.
entered(New, Flows, C = #conference{open = Open, agreed = Agreed}) ->
    Here = held_members(C),
    Wanted = wanted([Row || Row = #{id := Id} <- Here, lists:member(Id, New)], Here, C),
    Opened = case Flows of Wanted -> Wanted; _ -> flows_between(Here, Flows) end,
    C#conference{open = sets:union(Open, Opened), agreed = Agreed andalso Opened =:= Wanted}.

%% Drops flows of members who left while the request was under way.
flows_between(Rows, Flows) ->
    Ids = maps:from_keys([Id || #{id := Id} <- Rows], in),
    sets:filter(fun({A, B}) -> is_map_key(A, Ids) andalso is_map_key(B, Ids) end, Flows).

%% Notes the result of an Add. If the member left while the request was under way, the termination is subtracted.
added({{#{id := Id, media := Media}, Mode}, {add, T, #{local := Local}}}, C = #conference{held = Held}) ->
    Has = #held{termination = T, local = Local, remote = Media, mode = Mode},
    Added = C#conference{held = Held#{Id => Has}, arriving = maps:remove(Id, C#conference.arriving)},
    {[], case row(Id, C) of none -> expel(Id, Added); _ -> Added end};
added({{#{id := Id, media := Media}, _}, {add, _, {error, 515}}}, C = #conference{refused = Refused}) ->
    {[{refused, Id, 515, none}], C#conference{refused = Refused#{Id => Media}}};
added({{#{id := Id}, _}, {add, _, {error, _}}}, C) ->
    {[{full, Id}], block(Id, C)}.

moved({Id, Mode}, Flows, #{context := Context, results := [{move, _, Properties}]}, C) ->
    #conference{held = Held, arriving = Arriving} = C,
    case {Properties, Arriving} of
        {#{}, #{Id := {given, Holding}}} ->
            {[], entered([Id], Flows, C#conference{context = Context, arriving = maps:remove(Id, Arriving),
                                                   held = Held#{Id => held(Holding, Mode)}})};
        %% 434: the context is full. 412: the gateway has no free context. The member waits in the old context.
        {{error, Code}, _} when Code =:= 434; Code =:= 412 -> {[{full, Id}], block(Id, C)};
        %% A member who can't be moved is subtracted and added again.
        {_, #{Id := {given, #{context := From, termination := T}}}} ->
            #{moved := Moved} = row(Id, C),
            {[], ending([{From, T}], C#conference{arriving = Arriving#{Id := {cleared, Moved}}})};
        {_, _} -> failed(C)
    end;
moved(_, _, _, C) ->
    failed(C).

changed(Rows, Results, C) ->
    case [Code || {_, _, {error, Code}} <- Results, Code =/= 515] of
        [] ->
            Answered = lists:zip(lists:sublist(Rows, length(Results)), Results),
            {Events, Changed} = lists:mapfoldl(fun changed/2, C, Answered),
            {lists:append(Events), Changed};
        _ -> failed(C)
    end.

%% Notes the result of a Modify. Media that the gateway refuses aren't tried again.
changed({Row = #{id := Id, media := Media}, {modify, _, Properties}}, C) ->
    #conference{held = Held, refused = Refused} = C,
    case {Held, Properties} of
        {#{Id := #held{remote = Remote}}, {error, Code}} ->
            Had = case Remote of unknown -> none; _ -> Remote end,
            {[{refused, Id, Code, Had}], C#conference{refused = Refused#{Id => Media}}};
        {#{Id := Has = #held{local = Before}}, #{}} ->
            Now = Has#held{local = maps:get(local, Properties, Before), remote = Media, mode = mode(Row)},
            {[], C#conference{held = Held#{Id := Now}, refused = maps:remove(Id, Refused)}};
        {#{}, _} -> {[], C}
    end.

%%% Audits.

%% Notes the result of an inventory. Orphaned terminations are subtracted. Terminations of other rooms are left alone.
found(Results, Owners, C = #conference{context = Context, held = Held, leaving = Leaving, doubts = Doubts}) ->
    There = maps:from_list([{T, Properties} || {audit, T, Properties = #{}} <- Results, is_integer(T)]),
    case {Results, lists:all(fun({_, _, Properties}) -> is_map(Properties) end, Results)} of
        {[{audit, _, {error, Code}}], _} when ?IS_GONE(Code) -> {[], gone(C)};
        {[], _} -> {[], gone(C)};
        {_, false} -> failed(C);
        {_, true} ->
            Audited = maps:from_list([{Id, audited(Has, Properties)}
                                      || {Id, Has = #held{termination = T}} <- maps:to_list(Held),
                                         #{T := Properties} <- [There]]),
            Known = [T || #held{termination = T} <- maps:values(Audited)],
            Strays = [{Context, T} || T <- maps:keys(There) -- Known, maps:get(T, Owners, none) =/= other],
            With = C#conference{held = Audited, leaving = lists:usort(Strays ++ Leaving), doubts = tl(Doubts)},
            {[strays || Strays =/= []] ++ [{counts, counts(There)}], ended(lost_from(Held, With))}
    end.

counts(There) ->
    maps:filtermap(fun(_, #{statistics := #{<<"rtp/pr">> := Count}}) -> {true, Count}; (_, _) -> false end, There).

audited(Has, Properties = #{mode := Mode}) -> Has#held{mode = Mode, remote = maps:get(remote, Properties, unknown)};
audited(Has = #held{remote = unknown}, _) -> Has#held{mode = unknown};
audited(Has, _) -> Has.

%% The context no longer exists.
gone(C = #conference{held = Held, context = Context, leaving = Leaving}) ->
    Others = [Place || Place = {In, _} <- Leaving, In =/= Context],
    lost_from(Held, C#conference{context = new, held = #{}, leaving = Others, open = ?NO_FLOWS, doubts = []}).

%% Forgets the flows and departures of members whose terminations no longer exist.
lost_from(Before, C = #conference{held = Held, open = Open, departing = Departing}) ->
    Lost = maps:keys(maps:without(maps:keys(Held), Before)),
    agree(true, C#conference{open = lists:foldl(fun flows_without/2, Open, Lost),
                             departing = maps:without(Lost, Departing)}).

compared(Triples, C = #conference{held = Held, open = Open}) ->
    Names = maps:from_list([{T, Id} || {Id, #held{termination = T}} <- maps:to_list(maps:with(ids(C), Held))]),
    Known = [{A, B, How} || {S, T, How} <- Triples, #{S := A, T := B} <- [Names]],
    Found = lobby_topology:from_triples(Known),
    {[repaired || Found =/= Open], agree(true, C#conference{open = Found, doubts = []})}.
