%%% @doc A room as a value: which callers it admits, which gateway has its conference, and what it reports to members.
%%% `handle/3' takes an event and returns actions, so tests can try every order of events without processes.
%%%
%%% A message to a room may be duplicated, late or lost. So the room reads the rows again when it starts, reports a row
%%% as often as the member's process asks, and asks the gateway's process for a missing answer. The room never sends
%%% that process a request twice: if the answer is under way, the gateway would run the request twice.
-module(lobby_room_core).

-export([new/1, handle/3, describe/2, agrees/1, named/1, seats/1, received/2]).
-export_type([room/0, event/0, action/0, error/0, description/0, kept/0, settings/0]).

%% The number of successive failed requests after which the room pauses.
-define(PATIENCE, 3).
-define(MAX_MEMBERS, 64).
%% Milliseconds without packets after which a member is shown as not sending.
-define(LATELY, 1500).

-type name() :: lobby_room:name().
-type id() :: lobby_rules:id().
-type row() :: lobby_person:row().
-type handle() :: lobby_gateway:handle().
-type reference_() :: {Run :: term(), pos_integer()}.
-type error() :: no_room | no_member | room_full | room_locked | too_many_rules | not_yet.
%% Whether the room stays when its last member leaves, whether it keeps new callers out, and whether it makes newcomers
%% wait at its door.
-type settings() :: #{kept => boolean(), locked => boolean(), door => boolean()}.
%% The members whose phones may still send to a lost gateway, and the addresses there.
-type stale() :: #{id() => lobby_h248:media() | unknown}.
%% What a room hands over with a member: the termination, and the address to which the phone may still send.
-type given() :: {{handle(), lobby_conference:holding()} | none, Sends :: lobby_h248:media() | unknown | none}.
%% The room's row in the store.
-type kept() :: #{rules := [lobby_rules:rule()], settings := settings(), gateway := handle() | none, stale := stale()}.
-type event() :: {start, kept() | none, [row()]} | {holdings, [lobby_conference:holding()] | lost, #{id() => row()}}
               | {admit, id(), From :: name() | none, handle() | none} | {placed, handle() | none}
               | {reserved, boolean()} | {want, row()} | {gone, id()} | {ask, row(), handle() | none}
               | {left, id(), Moved :: pos_integer(), given()} | {confirmed, id(), lobby_h248:media()}
               | {rules, From :: term(), add | set, [lobby_rules:rule()], settings()}
               | {settings, From :: term(), settings()}
               | {audit, From :: term()} | {agree, From :: term()}
               | {answer, reference_(), {ok, lobby_h248:reply(), lobby_conference:owner()}
                                        | {error, pos_integer() | busy | lost}}
               | {lost, handle()} | {returned, handle()} | {leave, handle()} | retry | watch.
-type action() :: {request, handle(), reference_(), lobby_h248:action(), [id()]} | {unanswered, handle(), reference_()}
                | {holdings, handle()}
                | {place, [id()], Prefer :: handle() | none, Except :: handle() | none}
                | {reserve, handle(), [id()]} | {seats, handle(), [id()]}
                | {release, handle(), lobby_h248:termination(), To :: name()}
                | {ask, From :: name(), row(), handle() | none}
                | {left, To :: name(), id(), Moved :: pos_integer(), given()}
                | {'end', handle(), [lobby_conference:place()]}
                | {admitted, id(), ok | {error, error()}} | {report, id(), lobby_person:report()} | {silent, id()}
                | {reply, From :: term(), term()} | {save, kept()} | {count, atom()} | {retry, soon | later}
                | published | stop.
-type description() :: #{members := [{row(), lobby_h248:termination() | none}], rules := [lobby_rules:rule()],
                         flows := [lobby_rules:flow()], gateway := lobby_gateway:name() | none,
                         context := lobby_h248:context() | new, settings := settings(), sends := #{id() => boolean()}}.

-record(room, {name :: name(), run :: term(), conference = lobby_conference:new() :: lobby_conference:conference(),
               gateway = none :: handle() | none, settings = #{} :: settings(), stale = #{} :: stale(),
               %% Callers who were admitted, but whose rows haven't arrived yet, with the time. Callers who wait for
               %% admission.
               admitted = #{} :: #{id() => integer()}, admits = [] :: [{id(), handle() | none}],
               %% What the room waits for: its holdings, a seat, a gateway, or an answer.
               busy = none :: none | holdings | {seat, id()} | place
                            | {reference_(), lobby_conference:step()},
               next = 1 :: pos_integer(), failures = 0 :: non_neg_integer(), waits = false :: boolean(),
               %% Whether the gateway already has the desired state.
               rests = false :: boolean(),
               %% Whether the gateway rejected a member for whom it should have a seat.
               full = false :: boolean(),
               %% The rooms to which members of this room have moved.
               asks = #{} :: #{id() => {To :: name(), Moved :: pos_integer(), handle() | none}},
               reported = #{} :: #{id() => lobby_person:report()},
               %% The requests to answer once the gateway has the desired state, and once it has been audited.
               asked = [] :: [term()], audits = [] :: [term()], compared = unknown :: unknown | same | repaired,
               %% The number of packets that each termination has received, and the time of the last change.
               packets = #{} :: #{lobby_h248:termination() => {non_neg_integer(), Since :: integer()}},
               silent_after = 30000 :: pos_integer(),
               saved = none :: kept() | none, shown = none :: term(), seats = none :: [id()] | none,
               out = [] :: [action()]}).
-opaque room() :: #room{}.

%% @doc Returns an empty room. `Run' differs for each process, so that answers to an earlier process are recognized as
%% such.
-spec new(#{name := name(), run := term(), silent_after => pos_integer()}) -> room().
new(Options = #{name := Name, run := Run}) ->
    #room{name = Name, run = Run, silent_after = maps:get(silent_after, Options, 30000)}.

%% @doc Returns the ids of the members, and of the members whom rules name.
-spec named(room()) -> [id()].
named(#room{conference = C}) ->
    lists:usort(lobby_conference:ids(C) ++ lobby_rules:named(lobby_conference:rules(C))).

%% @doc Handles an event at a time in milliseconds. Returns the actions, in order.
-spec handle(event(), Now :: integer(), room()) -> {room(), [action()]}.
handle(Event, Now, Room) ->
    Rests = Room#room.rests andalso is_about_seats(Event),
    Worked = work(event(Event, Now, Room#room{out = [], waits = false, rests = Rests})),
    Done = #room{out = Out} = published(saved(seated(ended(Event, Worked)))),
    {Done#room{out = []}, lists:reverse(Out)}.

%% Returns whether an event only concerns seats. Such an event doesn't change the desired state.
is_about_seats({admit, _, _, _}) -> true;
is_about_seats({reserved, _}) -> true;
is_about_seats(_) -> false.

act(Action, Room = #room{out = Out}) -> Room#room{out = [Action | Out]}.
acts(Actions, Room) -> lists:foldl(fun act/2, Room, Actions).

%%% Events.

event({start, none, Rows}, _, Room) ->
    lists:foldl(fun wanted/2, Room, Rows);
event({start, Kept, Rows}, _, Room) ->
    #{rules := Rules, settings := Settings, gateway := Gateway, stale := Stale} = Kept,
    C = lobby_conference:set_rules(Rules, lobby_conference:new()),
    %% An earlier process may have learned from a member's old room where the phone still sends, so that is unknown now.
    Arriving = maps:from_list([{Id, unknown} || #{id := Id, from := From} <- Rows, From =/= none]),
    Known = Room#room{conference = C, settings = Settings, stale = maps:merge(Arriving, Stale), saved = Kept},
    Started = lists:foldl(fun wanted/2, Known, Rows),
    case Gateway of
        none -> Started;
        _ -> sent(Started#room{gateway = Gateway, busy = holdings})
    end;
event({holdings, lost, _}, _, Room = #room{busy = holdings}) ->
    lost(Room);
event({holdings, Holdings, Others}, _, Room = #room{busy = holdings, conference = C}) ->
    Room#room{busy = none, conference = lobby_conference:resume(Holdings, Others, C)};
event({admit, Id, From, Prefer}, Now, Room = #room{settings = Settings, admitted = Admitted, admits = Admits}) ->
    Locked = From =:= none andalso maps:get(locked, Settings, false),
    IsIn = lists:member(Id, lobby_conference:ids(Room#room.conference)) orelse is_map_key(Id, Admitted),
    case {Locked, IsIn, number(Room) >= ?MAX_MEMBERS} of
        {_, true, _} -> act({admitted, Id, ok}, admitted(Id, Now, Room));
        {true, _, _} -> act({admitted, Id, {error, room_locked}}, Room);
        {_, _, true} -> act({admitted, Id, {error, room_full}}, Room);
        {_, _, _} -> Room#room{admits = lists:keystore(Id, 1, Admits, {Id, Prefer})}
    end;
event({placed, none}, _, Room = #room{busy = place, gateway = Gateway}) when Gateway =/= none ->
    waits(Room#room{busy = none});
event({placed, none}, _, Room = #room{busy = place, admits = Admits}) ->
    waits(acts([{admitted, Id, {error, no_room}} || {Id, _} <- Admits], Room#room{busy = none, admits = []}));
event({placed, Other}, Now, Room = #room{busy = place, gateway = Gateway, conference = C}) when Gateway =/= none ->
    Ended = [{'end', Gateway, [{Context, all}]} || Context <- [lobby_conference:context(C)], Context =/= new],
    event({placed, Other}, Now, acts(Ended ++ [{seats, Gateway, []}], (lost(Room))#room{busy = place}));
event({placed, Gateway}, Now, Room = #room{busy = place, admits = Admits, reported = Reported}) ->
    Again = [{count, lobby_conferences_made_again_total} || map_size(Reported) > 0],
    Placed = acts(Again, Room#room{busy = none, gateway = Gateway, admits = []}),
    lists:foldl(fun({Id, _}, R) -> act({admitted, Id, ok}, admitted(Id, Now, R)) end, Placed, Admits);
event({reserved, true}, Now, Room = #room{busy = {seat, Id}}) ->
    act({admitted, Id, ok}, admitted(Id, Now, Room#room{busy = none}));
event({reserved, false}, _, Room = #room{busy = {seat, Id}}) ->
    act({admitted, Id, {error, no_room}}, Room#room{busy = none});
event({want, Row}, _, Room) ->
    wanted(Row, Room);
event({gone, Id}, _, Room = #room{conference = C}) ->
    forgotten(Id, Room#room{conference = lobby_conference:leave({ended, Id}, C)});
event({ask, Row = #{id := Id, room := To, moved := Moved}, Handle}, _, Room) ->
    #room{conference = C, asks = Asks, stale = Stale} = Room,
    case last_moved(Id, Room) of
        %% The request dates from before the member came back or moved on.
        Later when Later > Moved -> act({left, To, Id, Moved, {none, none}}, Room);
        _ ->
            Asked = Room#room{conference = lobby_conference:leave(Row, C), asks = Asks#{Id => {To, Moved, Handle}}},
            (forgotten(Id, Asked))#room{stale = Stale}
    end;
event({left, Id, Moved, {Given, Sends}}, _, Before) ->
    Room = #room{conference = C, gateway = Gateway} = may_send(Id, Moved, Sends, Before),
    Here = case Given of {Gateway, Holding} -> Holding; _ -> none end,
    Elsewhere = [{'end', Other, [{Context, T}]} || {Other, #{termination := T, context := Context}} <- [Given],
                                                   Other =/= Gateway],
    acts(Elsewhere, Room#room{conference = lobby_conference:cleared(Id, Moved, Here, C)});
event({confirmed, Id, Local}, _, Room = #room{stale = Stale, reported = Reported}) ->
    case Reported of
        #{Id := {holds, _, Local, _}} -> Room#room{stale = maps:remove(Id, Stale)};
        #{} -> Room
    end;
event({rules, From, How, Rules, Settings}, _, Room = #room{conference = C, asked = Asked, settings = Had}) ->
    Before = case How of add -> lobby_conference:rules(C); set -> [] end,
    case lobby_rules:add(Rules, Before) of
        {ok, All} ->
            Room#room{conference = lobby_conference:set_rules(All, C), asked = [From | Asked],
                      settings = maps:merge(Had, Settings)};
        {error, Reason} -> act({reply, From, {error, Reason}}, Room)
    end;
event({settings, From, Settings}, _, Room = #room{settings = Before}) ->
    act({reply, From, ok}, Room#room{settings = maps:merge(Before, Settings)});
event({agree, From}, _, Room = #room{asked = Asked}) ->
    Room#room{asked = [From | Asked]};
event({audit, From}, _, Room = #room{gateway = none}) ->
    act({reply, From, unknown}, Room);
event({audit, From}, _, Room = #room{conference = C, audits = Audits}) ->
    Room#room{conference = lobby_conference:check(C), audits = [From | Audits], compared = unknown};
event({answer, Reference, Answer}, Now, Room = #room{busy = {Reference, Step}, conference = C}) ->
    {Events, Done} = lobby_conference:done(Step, Answer, C),
    lists:foldl(fun(Event, R) -> answered(Event, Now, R) end,
                progress(Step, Events, Room#room{busy = none, conference = Done}), Events);
event({lost, Gateway}, _, Room = #room{gateway = Gateway}) ->
    lost(Room);
event({returned, Gateway}, _, Room = #room{gateway = Gateway, conference = C}) ->
    act({count, lobby_conferences_kept_total}, Room#room{conference = lobby_conference:check(C), packets = #{}});
%% The room leaves the gateway as if the gateway were full.
event({leave, Gateway}, _, Room = #room{gateway = Gateway}) ->
    Room#room{full = true};
event(retry, _, Room = #room{conference = C}) ->
    sent(Room#room{failures = 0, conference = lobby_conference:unblock(C)});
event(watch, Now, Room = #room{conference = C, admitted = Admitted}) ->
    %% If an admitted caller's row hasn't arrived within 30 s, the process of the call has failed.
    Still = maps:filter(fun(_, Since) -> Now - Since < 30000 end, Admitted),
    Room#room{admitted = Still, conference = lobby_conference:check(C)};
event(_, _, Room) ->
    Room.

%% Returns the version of a person's last known move.
last_moved(Id, #room{conference = C, asks = Asks}) ->
    lists:max([0] ++ [Moved || {#{moved := Moved}, _} <- [lobby_conference:find(Id, C)]] ++
              [Moved || #{Id := {_, Moved, _}} <- [Asks]]).

admitted(Id, Now, Room = #room{admitted = Admitted, conference = C}) ->
    case lists:member(Id, lobby_conference:ids(C)) of
        true -> Room;
        false -> Room#room{admitted = Admitted#{Id => Now}}
    end.

number(#room{conference = C, admitted = Admitted, admits = Admits}) ->
    length(lobby_conference:ids(C)) + map_size(Admitted) + length(Admits).

%% Handles a row. Each row that arrives is reported again, because an earlier report may have been lost.
wanted(Row = #{id := Id, room := Name}, Room = #room{name = Name, conference = C, reported = Reported, asks = Asks}) ->
    Room#room{conference = lobby_conference:want(Row, C), admitted = maps:remove(Id, Room#room.admitted),
              reported = without_version(Id, Reported), asks = maps:remove(Id, Asks)};
wanted(Row = #{id := Id}, Room = #room{conference = C}) ->
    forgotten(Id, Room#room{conference = lobby_conference:leave(Row, C)}).

without_version(Id, Reported) ->
    case Reported of
        #{Id := {holds, _, Local, Everywhere}} -> Reported#{Id := {holds, 0, Local, Everywhere}};
        #{} -> maps:remove(Id, Reported)
    end.

forgotten(Id, Room = #room{reported = Reported, stale = Stale, admitted = Admitted, admits = Admits}) ->
    Room#room{reported = maps:remove(Id, Reported), stale = maps:remove(Id, Stale),
              admitted = maps:remove(Id, Admitted), admits = lists:keydelete(Id, 1, Admits)}.

%% Handles the loss of the gateway. A gateway that is only unreachable may still mix the media of phones that send to
%% it.
lost(Room = #room{conference = C, stale = Stale, busy = Busy, asks = Asks}) ->
    Sent = [{Id, lobby_conference:local(Id, C)} || Id <- lists:usort(lobby_conference:ids(C) ++ maps:keys(Asks))],
    Left = maps:from_list([{Id, unknown} || {Id, none} <- Sent, Busy =:= holdings] ++
                          [{Id, case Stale of #{Id := _} -> unknown; #{} -> Local end} || {Id, {ok, Local}} <- Sent]),
    Room#room{gateway = none, busy = none, conference = lobby_conference:forget(C), stale = maps:merge(Stale, Left),
              failures = 0, full = false, packets = #{}, seats = none}.

%% Asks again for what the room waits for: the process that was asked may have been starting, and missed the message.
sent(Room = #room{busy = {Reference = {_, _}, _}, gateway = Gateway}) ->
    acts([{unanswered, Gateway, Reference}, {retry, later}], Room);
sent(Room = #room{busy = holdings, gateway = Gateway}) ->
    acts([{holdings, Gateway}, {retry, later}], Room);
sent(Room) ->
    ask(Room).

%% Asks other rooms to release members who have moved here.
ask(Room = #room{conference = C, gateway = Gateway}) ->
    acts([{ask, From, Row, Gateway} || Row = #{from := From} <- lobby_conference:asked(C)], Room).

%%% The gateway's answers.

%% Counts successive failures. A successful audit doesn't reset the count.
progress(Step, Events, Room = #room{failures = Failures}) ->
    case {lists:member(failed, Events), Step} of
        {true, _} -> Room#room{failures = Failures + 1};
        {false, inventory} -> Room;
        {false, topology} ->
            Room#room{compared = case lists:member(repaired, Events) of true -> repaired; false -> same end};
        {false, _} -> Room#room{failures = 0}
    end.

answered({refused, Id, Code, Media}, _, Room = #room{conference = C}) ->
    case lobby_conference:find(Id, C) of
        {#{version := Version}, _} -> act({report, Id, {refused, Version, Code, Media}}, Room);
        none -> Room
    end;
answered({counts, Counts}, Now, Room) -> watched(Counts, Now, Room);
answered(repaired, _, Room) -> act({count, lobby_topologies_repaired_total}, Room);
answered(strays, _, Room) -> act({count, lobby_strays_total}, Room);
answered({full, _}, _, Room) -> Room#room{full = true};
answered(failed, _, Room) -> Room.

%% Notifies members who should be sending, but whose packet counts no longer rise.
watched(Counts, Now, Room = #room{conference = C, packets = Before, silent_after = SilentAfter}) ->
    Still = maps:map(fun(T, Count) -> still(Count, maps:get(T, Before, none), Now) end, Counts),
    Silent = [{Id, T} || {#{id := Id, direction := sendrecv}, T} <- found(C), #{T := {_, Since}} <- [Still],
                         Now - Since >= SilentAfter],
    %% A gateway that restarted before the controller noticed the loss counts from 0 again.
    Again = [T || {T, Count} <- maps:to_list(Counts), #{T := {More, _}} <- [Before], Count < More],
    %% Silent members are notified again only after the same time.
    acts([{count, lobby_conferences_kept_total} || Again =/= []] ++ [{silent, Id} || {Id, _} <- Silent],
         Room#room{packets = maps:without([T || {_, T} <- Silent], Still)}).

still(Count, {Count, Since}, _) -> {Count, Since};
still(Count, _, Now) -> {Count, Now}.

found(C) ->
    [Found || Id <- lobby_conference:ids(C), Found <- [lobby_conference:find(Id, C)]].

%%% The next action.

work(Room = #room{busy = Busy, waits = Waits}) when Busy =/= none; Waits ->
    Room;
work(Room = #room{gateway = none, admits = Admits}) ->
    case ids(Room) of
        [] -> answer_asked(audited(left(Room)));
        Ids ->
            [{_, Prefer} | _] = Admits ++ [{none, none}],
            act({place, Ids, Prefer, none}, left(Room#room{busy = place}))
    end;
work(Room = #room{admits = [{Id, _} | Admits], gateway = Gateway}) ->
    Seating = Room#room{admits = Admits, busy = {seat, Id}},
    Ids = seated_ids(Seating),
    act({reserve, Gateway, Ids}, Seating#room{seats = Ids});
work(Room = #room{rests = true}) ->
    Room;
work(Room = #room{full = true, gateway = Gateway}) ->
    act({place, ids(Room), none, Gateway}, Room#room{busy = place, full = false});
work(Room = #room{failures = ?PATIENCE}) ->
    waits(Room);
work(Room = #room{conference = C0}) ->
    {Next, C} = lobby_conference:next(C0),
    next(Next, Room#room{conference = C}).

%% Returns the ids of people who have a seat or wait for one.
ids(Room = #room{admits = Admits}) ->
    lists:usort([Id || {Id, _} <- Admits] ++ seated_ids(Room)).

%% Returns the ids of people who have a seat, or for whom a seat is being reserved.
seated_ids(#room{conference = C, admitted = Admitted, busy = Busy}) ->
    lists:usort([Id || {seat, Id} <- [Busy]] ++ lobby_conference:ids(C) ++ maps:keys(Admitted)).

next({request, Action, Step}, Room = #room{run = Run, next = N, gateway = Gateway}) ->
    Reference = {Run, N},
    acts([{request, Gateway, Reference, Action, added(Step)}, {retry, later}],
         Room#room{busy = {Reference, Step}, next = N + 1});
next({release, #{id := Id}, T}, Room = #room{asks = Asks, gateway = Gateway, conference = C}) ->
    case Asks of
        #{Id := {To, Moved, Gateway}} ->
            {[], Done} = lobby_conference:done({released, Id}, done, C),
            Given = {Gateway, lobby_conference:holding(Id, C)},
            Let = left(Id, To, Moved, Given, act({release, Gateway, T, To}, Room)),
            work(Let#room{conference = Done});
        #{Id := _} -> work(Room#room{conference = lobby_conference:expel(Id, C)});
        #{} -> settled(Room)
    end;
next(settled, Room) ->
    settled(Room).

%% Returns the ids of the members for whom a request creates terminations.
added({add, New, _}) -> [Id || {#{id := Id}, _} <- New];
added(_) -> [].

settled(Room0 = #room{conference = C}) ->
    Room = audited(left(settled_phones(Room0))),
    Reported = answer_asked(report(Room)),
    case {lobby_conference:asked(C), lobby_conference:missing(C)} of
        {[], []} -> Reported#room{rests = true};
        {[], _} -> waits(Reported);
        {_, _} -> act({retry, soon}, ask(Reported))
    end.

%% Forgets phones that still send to the right address, because the gateway receives them where it did before.
settled_phones(Room = #room{conference = C, stale = Stale}) ->
    Room#room{stale = maps:filter(fun(Id, Before) -> lobby_conference:local(Id, C) =/= {ok, Before} end, Stale)}.

%% Reports to each member the version that the gateway has, and the address at which it receives the member.
report(Room = #room{conference = C, reported = Reported, stale = Stale}) ->
    Reports = [{Id, {holds, Version, Local, map_size(Stale) =:= 0}}
               || #{id := Id, version := Version} <- lobby_conference:persons(C),
                  {ok, Local} <- [lobby_conference:local(Id, C)]],
    New = [{Id, Report} || {Id, Report} <- Reports, maps:get(Id, Reported, none) =/= Report],
    acts([{report, Id, Report} || {Id, Report} <- New],
         Room#room{reported = maps:merge(Reported, maps:from_list(New))}).

answer_asked(Room = #room{asked = Asked, stale = Stale}) when map_size(Stale) =:= 0 ->
    acts([{reply, From, ok} || From <- Asked], Room#room{asked = []});
answer_asked(Room) ->
    Room.

%% Answers requests for an audit. The result is `unknown' if the topology couldn't be audited, for example because it
%% may not fit into a reply.
audited(Room = #room{audits = Audits, compared = Result}) ->
    acts([{reply, From, Result} || From <- Audits], Room#room{audits = []}).

%% Notifies other rooms of members who have moved there, and have no termination here any more.
left(Room = #room{asks = Asks, conference = C}) ->
    Gone = maps:filter(fun(Id, _) -> not lobby_conference:has(Id, C) end, Asks),
    maps:fold(fun(Id, {To, Moved, _}, R) -> left(Id, To, Moved, none, R) end, Room, Gone).

left(Id, To, Moved, Given, Room = #room{asks = Asks, stale = Stale}) ->
    act({left, To, Id, Moved, {Given, maps:get(Id, Stale, none)}},
        Room#room{asks = maps:remove(Id, Asks), stale = maps:remove(Id, Stale)}).

%% Notes that a member from another room may still send to a lost gateway, so this room waits for the phone.
may_send(_, _, none, Room) ->
    Room;
may_send(Id, Moved, Sends, Room = #room{conference = C, stale = Stale}) ->
    case lobby_conference:find(Id, C) of
        {#{moved := Moved}, _} -> Room#room{stale = Stale#{Id => Sends}};
        _ -> Room
    end.

%% Pauses until an event or a timer, and reports that pending changes take longer.
waits(Room = #room{conference = C, asked = Asked}) ->
    Late = [{report, Id, {later, Version}} || Row = #{id := Id, version := Version} <- lobby_conference:persons(C),
                                              is_late(Row, Room)],
    Told = acts(Late ++ [{reply, From, {error, not_yet}} || From <- Asked], Room#room{asked = [], waits = true}),
    act({retry, soon}, audited(Told)).

is_late(#{id := Id, version := Version}, #room{reported = Reported}) ->
    case Reported of
        #{Id := {holds, Version, _, _}} -> false;
        #{} -> true
    end.

%%% The state that outlives the process.

%% Ends an empty room, unless it is to be kept. A room that has just been started for a caller doesn't end, because the
%% caller's event hasn't arrived yet.
ended({start, _, _}, Room) ->
    Room;
ended(_, Room = #room{busy = none, admitted = Admitted, admits = [], asks = Asks, settings = Settings, conference = C})
  when map_size(Admitted) =:= 0, map_size(Asks) =:= 0 ->
    case {lobby_conference:is_empty(C), maps:get(kept, Settings, false)} of
        {true, false} -> act(stop, Room);
        {true, true} when Room#room.gateway =/= none ->
            act({seats, Room#room.gateway, []}, Room#room{gateway = none, conference = lobby_conference:forget(C)});
        {_, _} -> Room
    end;
ended(_, Room) ->
    Room.

seated(Room = #room{gateway = none}) ->
    Room#room{seats = none};
%% Until the holdings arrive, this process doesn't know the seats that an earlier one reserved.
seated(Room = #room{busy = holdings}) ->
    Room;
seated(Room = #room{gateway = Gateway, seats = Before}) ->
    case seated_ids(Room) of
        Before -> Room;
        Ids -> act({seats, Gateway, Ids}, Room#room{seats = Ids})
    end.

%% Saves the room's row before all other actions, so that a restarted room knows of them.
saved(Room = #room{saved = Before, settings = Settings, gateway = Gateway, stale = Stale, conference = C, out = Out}) ->
    case #{rules => lobby_conference:rules(C), settings => Settings, gateway => Gateway, stale => Stale} of
        Before -> Room;
        Kept -> Room#room{saved = Kept, out = Out ++ [{save, Kept}]}
    end.

%% Publishes an event if the room's visible state has changed.
published(Room = #room{busy = none, shown = Before, conference = C, gateway = Gateway, settings = Settings}) ->
    case {lobby_conference:visible(C), Gateway, Settings} of
        Before -> Room;
        Shown -> act(published, Room#room{shown = Shown})
    end;
published(Room) ->
    Room.

%%% Queries.

%% @doc Returns whether a gateway has the desired state. If phones may still send to a lost gateway, it doesn't: an
%% unreachable gateway may still mix as before.
-spec agrees(room()) -> boolean().
agrees(#room{busy = none, stale = Stale, gateway = Gateway, conference = C}) when map_size(Stale) =:= 0 ->
    (Gateway =/= none orelse lobby_conference:is_empty(C)) andalso lobby_conference:missing(C) =:= []
        andalso element(1, lobby_conference:next(C)) =:= settled;
agrees(_) -> false.

%% @doc Returns the gateway, context and termination of each member who has a termination.
-spec seats(room()) -> #{id() => {Gateway :: binary(), Context :: term(), lobby_h248:termination()}}.
seats(#room{gateway = none}) -> #{};
seats(#room{gateway = Gateway, conference = C}) ->
    maps:from_list([{Id, {lobby_gateway:name(Gateway), lobby_conference:context(C), T}}
                    || {#{id := Id}, T} <- found(C), T =/= none]).

%% @doc Returns how many packets the gateway has received from each member, if there are new counts.
-spec received(Before :: room(), Now :: room()) -> [{id(), non_neg_integer()}].
received(#room{packets = Packets}, #room{packets = Packets}) -> [];
received(_, #room{packets = Packets, conference = C}) ->
    [{Id, Count} || {#{id := Id}, T} <- found(C), #{T := {Count, _}} <- [Packets]].

%% @doc Describes the room at a time. `sends': whether a member's packet count has risen lately, for members with a
%% count.
-spec describe(Now :: integer(), room()) -> description().
describe(Now, #room{conference = C, gateway = Gateway, settings = Settings, packets = Packets}) ->
    #{sends => maps:from_list([{Id, Count > 0 andalso Now - Since < ?LATELY}
                               || {#{id := Id}, T} <- found(C), #{T := {Count, Since}} <- [Packets]]),
      members => found(C), rules => lobby_conference:rules(C), settings => Settings,
      flows => lists:sort(sets:to_list(lobby_conference:flows(C))), context => lobby_conference:context(C),
      gateway => case Gateway of none -> none; _ -> lobby_gateway:name(Gateway) end}.
