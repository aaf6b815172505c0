%%% @doc A gateway as a value: whether it is alive, its requests and replies, and the owners of its terminations.
%%%
%%% A gateway doesn't register with a controller, and its replies don't reveal a restart. So this module adds an
%%% inactive termination, the sentinel, in a context of its own, with a Remote that only this controller can have
%%% chosen. It audits the sentinel regularly:
%%%
%%% - If the gateway doesn't answer, it is lost. It is lost sooner if its host reports repeatedly that the port is
%%%   closed (ICMP).
%%% - If an audit shows another termination or none, the gateway has restarted and lost its conferences. Requests of
%%%   rooms, and subtractions of their terminations, also begin with an audit of the sentinel, so a restarted gateway
%%%   runs none of them.
%%% - A gateway with a journal doesn't count as lost at once: the controller waits for its return. If the gateway comes
%%%   back with the sentinel, it also has all other terminations, and its conferences continue.
%%% - If a lost gateway answers again and still has the sentinel, it was only unreachable, or hung. Its conferences have
%%%   been recreated elsewhere by now, so the terminations that it still has are subtracted first. These requests are
%%%   sent at once, so that a gateway that hangs reads them before it sends anything. A node of a pair waits until the
%%%   gateway answers, and until the nodes agree again.
%%% - A gateway that is being drained gets no new rooms, and its rooms leave it, one after the other. Once it has no
%%%   terminations of ours, the sentinel is subtracted, too, and the gateway is sent nothing until it is to serve again.
%%% - If an earlier process or another node has used the gateway before, its conferences continue. Requests of rooms are
%%%   stored before they are sent, and repeated under their names until they are answered, because only the replies name
%%%   the terminations that they created. Then this process uses its own number, in an audit. After the reply, a gateway
%%%   with a fence runs no request of an earlier run, and the rooms learn which terminations they have.
%%% - If the gateway answers checks, but not this process, another controller has a higher number.
%%%
%%% A gateway gets a new handle each time it is lost or drained, so that a room that missed the loss can't command it
%%% with the old handle.
-module(lobby_gateway_core).

-export([new/1, handle/3, handle_of/1, orphans/3]).
-export_type([gateway/0, event/0, action/0, purpose/0, options/0, kept/0]).

%% Milliseconds between two rooms that leave a gateway.
-define(LEAVE, 200).

-type handle() :: lobby_gateway:handle().
-type room() :: lobby_room:name().
-type id() :: lobby_rules:id().
-type place() :: lobby_conference:place().
-type state() :: probing | cleaning | serving | away | drained.
-type sentinel() :: {lobby_h248:context(), lobby_h248:termination(), Remote :: lobby_h248:endpoint()}.
%% The purpose of a request: it belongs to a room, with the ids that it adds, or to this process itself.
-type purpose() :: {room, room(), Reference :: term(), [id()]} | {probe, Remote :: lobby_h248:endpoint()} | audit
                 | {clean, place()} | {unknown, lobby_transactions:sent()} | leave.
%% The stored state. `contexts': terminations to be subtracted. `unknown': abandoned requests that may have created
%% terminations.
-type kept() :: #{generation := pos_integer(), sentinel := sentinel() | none, contexts := [place()],
                  unknown := [lobby_transactions:sent()], draining => boolean()}.
%% `settled': milliseconds after which the nodes of a pair agree on which node serves.
-type options() :: #{config := lobby_gateway:config(), sender := lobby_h248:sender(),
                     first := lobby_h248:transaction(), settled := non_neg_integer(), kept := kept() | none,
                     entries := [{lobby_h248:termination(), lobby_seats:entry()}]}.
%% `start': carries the unanswered requests of earlier runs.
-type event() :: {start, [{lobby_transactions:sent(), purpose()}]}
               | {request, handle(), room(), Reference :: term(), lobby_h248:action(), [id()]}
               | {unanswered, handle(), room(), Reference :: term()}
               | {holdings, handle(), room()} | {reserve, From :: term(), handle(), room(), [id()]}
               | {seats, handle(), room(), [id()]} | {release, handle(), lobby_h248:termination(), room()}
               | {'end', handle(), [place()]} | {received, lobby_h248:message()} | refused
               | {timer, timer(), Remote :: lobby_h248:endpoint()} | {orphans, [lobby_h248:termination()]}
               | {drain, From :: term(), boolean()} | {durable, lobby_h248:transaction()}.
-type timer() :: transactions | probe | audit | clean | back | leave.
-type action() :: {send, binary()} | {keep, kept()}
                | {request, lobby_h248:transaction(), {lobby_transactions:sent(), purpose()} | none}
                | {durable, lobby_h248:transaction()}
                | {entry, lobby_seats:change()} | {tell, room(), term()} | {reply, From :: term(), term()}
                | {timer, timer(), non_neg_integer() | infinity} | {deadline, integer() | infinity}
                | {load, lobby_placement:load() | none}
                | {publish, serving | away | returned | lost | fenced | draining | drained} | {count, atom()}
                | {log, logger:level(), io:format(), [term()]}.

-record(gateway, {config :: lobby_gateway:config(), sender :: lobby_h248:sender(), settled :: non_neg_integer(),
                  state = probing :: state(),
                  generation = 1 :: pos_integer(), transactions :: lobby_transactions:transactions(),
                  seats :: lobby_seats:seats(), sentinel = none :: sentinel() | none,
                  %% The times since which the gateway's host has reported a closed port, and since which the controller
                  %% has waited for the gateway.
                  refused = none :: integer() | none, away = none :: integer() | none,
                  %% Whether a check was sent since the gateway's last reply, the time since which the gateway has
                  %% answered only checks, or `fenced' once that is reported.
                  checked = none :: none | asked | integer() | fenced,
                  contexts = [] :: [place()], unknown = [] :: [lobby_transactions:sent()],
                  %% Rooms that wait for their holdings, which they get once all their requests are answered.
                  asking = [] :: [room()],
                  %% Whether the gateway is being drained, and which room was last asked to leave.
                  draining = false :: boolean(), told = <<>> :: room(),
                  kept = none :: kept() | none, shown = none :: lobby_placement:load() | none, out = [] :: [action()]}).
-opaque gateway() :: #gateway{}.

%% @doc Returns a gateway in its stored state. Nothing is sent to it before the event `start'.
-spec new(options()) -> gateway().
new(#{config := Config, sender := Sender, first := First, settled := Settled, kept := Kept, entries := Entries}) ->
    #{terminations := MaxTerminations, contexts := MaxContexts} = Config,
    T = lobby_transactions:new(Sender, First, maps:with([retry, tries, quiet], Config)),
    G = #gateway{config = Config, sender = Sender, settled = Settled, transactions = T,
                 seats = lobby_seats:kept(Entries, lobby_seats:new(MaxTerminations, MaxContexts))},
    case Kept of
        none -> G;
        #{generation := Generation, sentinel := Sentinel, contexts := Contexts, unknown := Unknown} ->
            IsDraining = maps:get(draining, Kept, false),
            G#gateway{generation = Generation, sentinel = Sentinel, contexts = Contexts, unknown = Unknown,
                      kept = Kept, draining = IsDraining,
                      state = case Sentinel of none when IsDraining -> drained; none -> probing; _ -> away end}
    end.

%% @doc Returns the handle with which rooms command the gateway until it is lost or drained.
-spec handle_of(gateway()) -> handle().
handle_of(#gateway{config = #{name := Name}, generation = Generation}) -> {Name, Generation}.

%% @doc Returns the orphaned terminations, according to the rows of their members and the gateways of their rooms.
-spec orphans(fun((id()) -> {ok, lobby_person:row()} | error), fun((room()) -> handle() | none), gateway()) ->
          [lobby_h248:termination()].
orphans(Find, GatewayOf, G = #gateway{seats = Seats}) ->
    Entries = lobby_seats:entries(Seats),
    Latest = lobby_seats:latest(Seats),
    Own = handle_of(G),
    [T || {T, Entry = #{member := Id, room := Room, given := Given}} <- Entries,
          is_left_behind(Entry, Find(Id)) orelse is_superseded(Entry, Latest, Entries)
              %% The room has left the gateway, and this process failed before it learned that.
              orelse not Given andalso GatewayOf(Room) =/= Own].

%% Returns whether a termination's member has gone: the call has ended, or the member is in another room and isn't
%% moving there from the termination's room.
is_left_behind(_, error) -> true;
is_left_behind(#{room := Room}, {ok, #{room := In, from := From}}) -> In =/= Room andalso From =/= Room.

%% Returns whether a newer termination or context has replaced a termination. If it was released to a room, that room
%% didn't learn of it and added the member again. Otherwise, the room has ended, and this process failed before it
%% learned of the release; a new room of the same name has another context.
is_superseded(#{given := true, member := Id, room := Room}, _, Entries) ->
    [added || {_, #{given := false, member := Of, room := In}} <- Entries, Of =:= Id, In =:= Room] =/= [];
is_superseded(#{given := false, context := Context, room := Room}, Latest, _) ->
    map_get(Room, Latest) =/= Context.

%% @doc Handles an event at a time in milliseconds. The actions must be carried out in this order, so that state is
%% stored before messages that depend on it are sent.
-spec handle(event(), Now :: integer(), gateway()) -> {gateway(), [action()]}.
handle(Event, Now, Gateway) ->
    Done = shown(Gateway, probed(Now, kept(event(Event, Now, Gateway#gateway{out = []})))),
    {Done#gateway{out = []},
     lists:reverse(Done#gateway.out) ++ [{deadline, lobby_transactions:deadline(Done#gateway.transactions)}]}.

act(Action, G = #gateway{out = Out}) -> G#gateway{out = [Action | Out]}.
acts(Actions, G) -> lists:foldl(fun act/2, G, Actions).

%% Handles an event. An event with an older handle comes from a room that missed a loss.
event({start, Earlier}, Now, G = #gateway{state = State}) ->
    repeated(Earlier, Now, entered(State, G#gateway{away = Now}));
event({request, {_, N}, Room, Reference, Action, Ids}, Now, G = #gateway{generation = N, sentinel = {_, _, _}}) ->
    submit({queued, {room, Room, Reference, Ids}}, Action, Now, G);
event({request, Handle, Room, _, _, _}, _, G) ->
    told_lost(Handle, Room, G);
%% If no such request is open, either the room was sent the answer, or the request was on its way to a process that
%% failed.
event({unanswered, {_, N}, Room, Reference}, _, G = #gateway{generation = N}) ->
    Is = fun({room, Of, Known, _}) -> Of =:= Room andalso Known =:= Reference; (_) -> false end,
    case lobby_transactions:awaits(Is, G#gateway.transactions) of
        true -> G;
        false -> act({tell, Room, {answer, Reference, {error, lost}}}, G)
    end;
event({unanswered, Handle, Room, _}, _, G) ->
    told_lost(Handle, Room, G);
event({holdings, {_, N}, Room}, _, G = #gateway{generation = N, asking = Asking}) ->
    answer_asking(G#gateway{asking = lists:usort([Room | Asking])});
event({holdings, Handle, Room}, _, G) ->
    told_lost(Handle, Room, G);
event({reserve, From, {_, N}, Room, Ids}, _, G = #gateway{generation = N, state = State, seats = Seats})
  when State =:= serving; State =:= away ->
    {Result, Reserved} = lobby_seats:reserve(Room, Ids, Seats),
    act({reply, From, Result}, G#gateway{seats = Reserved});
event({reserve, From, _, _, _}, _, G) ->
    act({reply, From, false}, G);
event({seats, {_, N}, Room, Ids}, _, G = #gateway{generation = N, seats = Seats}) ->
    G#gateway{seats = lobby_seats:keep(Room, Ids, Seats)};
event({release, {_, N}, T, To}, _, G = #gateway{generation = N, seats = Seats}) ->
    changed(lobby_seats:let_go(T, To, Seats), G);
event({'end', {_, N}, Places}, Now, G = #gateway{generation = N}) ->
    to_end(Places, Now, G);
event({drain, From, Is}, _, G) ->
    drain(Is, act({reply, From, ok}, G));
event({timer, leave, _}, Now, G = #gateway{draining = true}) ->
    leave(Now, act({timer, leave, ?LEAVE}, G));
event({orphans, Orphans}, Now, G = #gateway{seats = Seats}) ->
    Places = [{Context, T} || {T, #{context := Context}} <- lobby_seats:entries(Seats), lists:member(T, Orphans)],
    to_end(Places, Now, case Places of [] -> G; _ -> act({count, lobby_strays_total}, G) end);
event({received, {reply, 1, _}}, Now, G) -> checked(Now, G);
event({received, {reply, Number, Reply}}, Now, G = #gateway{transactions = T}) ->
    effects(lobby_transactions:received(Number, Reply, Now, T), Now, G#gateway{refused = none, checked = none});
event({received, {error, Code}}, _, G = #gateway{config = #{name := Name}}) ->
    act({log, warning, "gateway ~p rejected a message: error ~b", [Name, Code]}, G#gateway{refused = none});
event(refused, Now, G = #gateway{state = serving, refused = none}) ->
    G#gateway{refused = Now};
%% The gateway counts as lost only if it is still refusing after a while, because it may be about to restart.
event(refused, Now, G = #gateway{state = serving, refused = Since, config = #{retry := Retry}})
  when Now - Since >= 2 * Retry ->
    gone(refused, Now, G);
event({durable, Number}, Now, G = #gateway{transactions = T}) ->
    effects(lobby_transactions:go(Number, Now, T), Now, G);
event({timer, transactions, _}, Now, G = #gateway{transactions = T}) ->
    check(effects(lobby_transactions:expired(Now, T), Now, G));
%% The gateway has no sentinel yet.
event({timer, probe, Remote}, Now, G = #gateway{state = probing, sentinel = none}) ->
    Add = {add, #{mode => inactive, remote => {Remote, pcmu}}},
    submit({forever, {probe, Remote}}, #{context => new, commands => [Add]}, Now, G);
event({timer, audit, _}, Now, G = #gateway{state = serving}) ->
    submit({urgent, audit}, sentinel_audit(G), Now, G);
event({timer, back, _}, Now, G = #gateway{state = away}) ->
    lost(not_back, Now, G);
%% This node may have been cut off, while the other node uses the terminations that this one would subtract. So this
%% node first waits until the nodes agree.
event({timer, clean, _}, _, G = #gateway{state = probing, settled = Settled}) when Settled > 0 ->
    G;
event({timer, clean, _}, Now, G) ->
    cleaned(clean(Now, G));
event(_, _, G) ->
    G.

told_lost({_, N}, _, G = #gateway{generation = N}) -> G;
told_lost(Handle, Room, G) -> act({tell, Room, {lost, Handle}}, G).

changed({Changes, Seats}, G) ->
    acts([{entry, Change} || Change <- Changes], G#gateway{seats = Seats}).

%%% States.

enter(State, G) -> entered(State, G#gateway{state = State}).

entered(drained, G) -> G;
entered(probing, G) -> act({timer, probe, 0}, G);
entered(away, G = #gateway{config = #{returns := Returns, retry := Retry, tries := Tries}, transactions = T}) ->
    act({timer, back, max(Returns, Retry * Tries)}, G#gateway{transactions = lobby_transactions:pause(T)});
entered(cleaning, G = #gateway{settled = Settled}) ->
    act({timer, clean, Settled}, G);
entered(serving, G = #gateway{config = #{name := Name, audit := Interval}}) ->
    Serves = {log, notice, "gateway ~p is in service", [Name]},
    Leave = [{timer, leave, 0} || G#gateway.draining],
    answer_asking(acts([Serves, {publish, serving}, {timer, audit, Interval} | Leave], G)).

sentinel_audit(#gateway{sentinel = {Context, Termination, _}}) ->
    #{context => Context, commands => [{audit, Termination, [media]}]}.

%% Audits the sentinel, once the requests of earlier runs are answered: after a message with the new number, a gateway
%% with a fence no longer runs them.
probed(Now, G = #gateway{state = State, sentinel = {_, _, _}, sender = Own, unknown = Unknown})
  when State =:= probing; State =:= away ->
    Again = #gateway{transactions = T} = unknown([S || S = {Sender, _, _} <- Unknown, Sender =/= Own], Now, G),
    case earlier(Again) orelse lists:keymember(audit, 2, lobby_transactions:open(T)) of
        true -> Again;
        false -> submit({forever, audit}, sentinel_audit(G), Now, Again)
    end;
probed(_, G) -> G.

%% Returns whether requests of earlier runs are unanswered.
earlier(#gateway{sender = Own, transactions = T}) ->
    lists:any(fun({Sender, _}) -> Sender =/= Own end, lobby_transactions:open(T)).

%% Sends a check, which a gateway answers even if it drops all other requests.
check(G = #gateway{state = State, checked = Is}) when State =/= serving, State =/= drained, Is =/= fenced ->
    act({send, lobby_h248:check()}, G#gateway{checked = case Is of none -> asked; _ -> Is end});
check(G) -> G.

%% Handles the answer to a check. The gateway may just be slow to answer other requests, so this waits for a while. If
%% requests of earlier runs are open, perhaps only their numbers are too low, so nothing is reported yet.
checked(Now, G = #gateway{checked = asked}) -> G#gateway{checked = Now};
checked(Now, G = #gateway{checked = Since, config = #{retry := Retry, tries := Tries}, sender = Own})
  when Now - Since >= Retry * Tries ->
    Lost = #gateway{unknown = Unknown} = given_up(fenced, G),
    %% The gateway no longer runs requests of earlier runs.
    Left = Lost#gateway{checked = none, unknown = [S || S = {Sender, _, _} <- Unknown, Sender =:= Own]},
    enter(probing, case earlier(G) of true -> Left; false -> fenced(Left) end);
checked(_, G) -> G.

fenced(G = #gateway{config = #{name := Name}, sender = {Number, _}}) ->
    Why = "gateway ~p answers checks, but not number ~b: another controller has a higher one",
    acts([{log, error, Why, [Name, Number]}, {count, lobby_gateway_fenced_total}, {publish, fenced}],
         G#gateway{checked = fenced}).

%% Handles a gateway that doesn't answer. A gateway with a journal may come back with its conferences.
gone(Why, Now, G = #gateway{config = #{returns := 0}}) ->
    lost(Why, Now, G);
gone(Why, Now, G = #gateway{config = #{name := Name}}) ->
    Waits = {log, warning, "gateway ~p: ~p; waiting for it to return", [Name, Why]},
    enter(away, acts([Waits, {publish, away}], G#gateway{refused = none, away = Now})).

returned(Now, G = #gateway{config = #{name := Name}, away = Since, seats = Seats, transactions = T}) ->
    Told = acts([{log, notice, "gateway ~p returned with its conferences after ~b ms", [Name, Now - Since]},
                 {count, lobby_gateway_returns_total}, {publish, returned}
                 | [{tell, Room, {returned, handle_of(G)}} || Room <- lobby_seats:rooms(Seats)]], G),
    Resumed = effects(lobby_transactions:resume(Now, T), Now, Told#gateway{away = none, state = serving}),
    enter(serving, act({timer, clean, 0}, Resumed)).

%% The terminations of all rooms are to be subtracted, because the rooms recreate their conferences elsewhere.
lost(Why, Now, G) ->
    Probing = probed(Now, (forgotten(Why, G))#gateway{state = probing}),
    case G#gateway.settled of
        0 -> clean(Now, Probing);
        _ -> Probing
    end.

forgotten(Why, G = #gateway{config = #{name := Name}, generation = Generation, seats = Seats}) ->
    {Abandoned, T} = lobby_transactions:abandon(G#gateway.transactions),
    {Contexts, Changes, Forgotten} = lobby_seats:forget(Seats),
    Places = [{Context, all} || Context <- Contexts],
    Making = [Sent || Sent = {_, _, Action} <- Abandoned, lobby_transactions:makes(Action)],
    Lost = G#gateway{generation = Generation + 1, transactions = T, seats = Forgotten, refused = none, away = none,
                     asking = [], contexts = lists:usort(Places ++ G#gateway.contexts),
                     unknown = lists:usort(Making ++ G#gateway.unknown)},
    acts([{entry, Change} || Change <- Changes] ++ [{request, Number, none} || {_, Number, _} <- Abandoned] ++
         [{log, warning, "gateway ~p is lost: ~p", [Name, Why]}, {count, lobby_gateway_losses_total}, {publish, lost}
          | [{tell, Room, {lost, handle_of(G)}} || Room <- lobby_seats:rooms(Seats)]], kept(Lost)).

%% The gateway has restarted without our terminations, so none has to be subtracted.
begun_anew(G) ->
    enter(probing, (given_up(begun_anew, G))#gateway{sentinel = none, contexts = [], unknown = []}).

given_up(_, G = #gateway{state = probing}) -> abandoned(G);
given_up(Why, G) -> forgotten(Why, G).

%%% Draining.

drain(Is, G = #gateway{draining = Is}) ->
    G;
drain(true, G = #gateway{config = #{name := Name}}) ->
    Draining = kept(G#gateway{draining = true, told = <<>>}),
    acts([{log, notice, "gateway ~p is being drained", [Name]}, {publish, draining}, {timer, leave, 0}], Draining);
drain(false, G = #gateway{state = State, config = #{name := Name}}) ->
    Log = {log, notice, "gateway ~p takes rooms again", [Name]},
    Back = kept(acts([Log, {timer, leave, infinity}], G#gateway{draining = false})),
    case State of drained -> enter(probing, abandoned(Back)); _ -> Back end.

%% Asks the next room to leave. Once no room uses the gateway, and no termination is to be subtracted, it is drained.
leave(Now, G = #gateway{state = serving, seats = Seats, told = Told, contexts = Contexts, unknown = Unknown}) ->
    Rooms = lobby_seats:rooms(Seats),
    case {[Room || Room <- Rooms, Room > Told] ++ Rooms, Contexts, Unknown} of
        {[Next | _], _, _} -> act({tell, Next, {leave, handle_of(G)}}, G#gateway{told = Next});
        {[], [], []} -> left(Now, G);
        {[], _, _} -> G
    end;
leave(_, G) -> G.

left(Now, G = #gateway{config = #{name := Name}, sentinel = {Context, T, _}, generation = Generation}) ->
    Action = #{context => Context, commands => [{subtract_optional, T}]},
    Left = submit({patiently, leave}, Action, Now, abandoned(enter(drained, G))),
    acts([{log, notice, "gateway ~p is drained", [Name]}, {publish, drained}, {timer, leave, infinity}],
         kept(Left#gateway{sentinel = none, generation = Generation + 1})).

%% Abandons the open requests, none of which belongs to a room.
abandoned(G = #gateway{transactions = T}) ->
    {_, Without} = lobby_transactions:abandon(T),
    G#gateway{transactions = Without}.

%%% Subtracting terminations.

to_end(Places, Now, G = #gateway{contexts = Contexts}) ->
    New = lists:usort(Places) -- Contexts,
    lists:foldl(fun(Place, Acc) -> end_place(Place, Now, Acc) end, kept(G#gateway{contexts = New ++ Contexts}), New).

clean(Now, G = #gateway{contexts = Contexts, unknown = Unknown}) ->
    lists:foldl(fun(Place, Acc) -> end_place(Place, Now, Acc) end, unknown(Unknown, Now, G), Contexts).

%% Repeats requests that may have created terminations, because only the replies name these.
unknown(Unknown, Now, G) ->
    repeated([{Sent, {unknown, Sent}} || Sent <- Unknown, not awaits({unknown, Sent}, G)], Now, G).

%% Repeats requests under their names. While the controller waits for the gateway, it retransmits them at short
%% intervals, to notice the gateway's return in time.
repeated(Requests, Now, G = #gateway{state = State}) ->
    Kind = case State of away -> forever; _ -> patiently end,
    lists:foldl(fun({Sent, Purpose}, Acc = #gateway{transactions = T}) ->
        effects(lobby_transactions:resubmit({Kind, Purpose}, Sent, Now, T), Now, Acc)
    end, G, Requests).

end_place(_, _, G = #gateway{sentinel = none}) -> G;
end_place(Place = {Context, Name}, Now, G) ->
    case awaits({clean, Place}, G) orelse earlier(G) of
        true -> G;
        false ->
            Action = #{context => Context, commands => [{subtract_optional, Name}]},
            submit({patiently, {clean, Place}}, Action, Now, G)
    end.

awaits(Purpose, #gateway{transactions = T}) ->
    lobby_transactions:awaits(fun(Other) -> Other =:= Purpose end, T).

cleaned(G = #gateway{state = cleaning, contexts = [], unknown = []}) -> enter(serving, G);
cleaned(G) -> G.

%%% Requests and replies.

submit(Kind, Action, Now, G = #gateway{transactions = T}) ->
    effects(lobby_transactions:submit(Kind, guarded(Kind, Action, G), Now, T), Now, G).

%% Adds a guard to requests that a gateway has to reject after a restart without a journal.
guarded({_, {room, _, _, _}}, Action, #gateway{sentinel = {Context, T, _}}) -> Action#{guard => {Context, T}};
guarded({_, {clean, _}}, Action, #gateway{sentinel = {Context, T, _}}) -> Action#{guard => {Context, T}};
guarded(_, Action, _) -> Action.

effects({Effects, T}, Now, G) ->
    lists:foldl(fun(Effect, Acc) -> effect(Effect, Now, Acc) end, G#gateway{transactions = T}, Effects).

effect({'begin', Sent = {_, Number, _}, Purpose = {room, _, _, _}}, _, G) ->
    act({request, Number, {Sent, Purpose}}, G);
effect({'begin', _, _}, _, G) -> G;
effect({wait, Number}, _, G) -> act({durable, Number}, G);
effect({send, Message}, _, G) -> act({send, Message}, G);
effect({refuse, {room, Room, Reference, _}, busy}, _, G) ->
    act({tell, Room, {answer, Reference, {error, busy}}}, G);
effect(no_answer, Now, G = #gateway{state = serving}) ->
    gone(no_answer, Now, G);
effect(no_answer, Now, G) ->
    lost(no_answer, Now, G);
effect({answer, Number, Purpose, Action, Reply}, Now, G) ->
    case {Action, Reply} of
        {#{guard := _}, {ok, [#{results := [{audit, _, Properties}]}, Answer]}} when is_map(Properties) ->
            answered(Purpose, Number, {ok, Answer}, Now, G);
        {#{guard := _}, {ok, _}} -> begun_anew(G);
        {_, {ok, [Answer]}} -> answered(Purpose, Number, {ok, Answer}, Now, G);
        {_, {error, Code}} -> answered(Purpose, Number, {error, Code}, Now, G);
        {_, _} -> answered(Purpose, Number, {error, 0}, Now, G)
    end.

%% Handles a reply. Its results are stored before the room is sent the answer, and the request stays stored until then.
answered({room, Room, Reference, Ids}, Number, Reply, _, G = #gateway{seats = Seats}) ->
    {Noted, Answer} = case Reply of
        {ok, Result = #{context := Context}} ->
            {Changes, Seats1} = lobby_seats:noted(Room, Ids, Result, Seats),
            {changed({Changes, Seats1}, G), {ok, Result, lobby_seats:owners(Room, Context, Seats1)}};
        {error, _} -> {G, Reply}
    end,
    answer_asking(acts([{tell, Room, {answer, Reference, Answer}}, {request, Number, none}], Noted));
answered({probe, Remote}, _, {ok, #{context := Context, results := [{add, T, #{}}]}}, _,
         G = #gateway{state = probing}) ->
    enter(cleaning, kept(G#gateway{sentinel = {Context, T, Remote}}));
answered({probe, _}, _, Reply, _, G = #gateway{state = probing, config = #{name := Name}}) ->
    acts([{log, warning, "gateway ~p rejected an Add: ~0p", [Name, Reply]}, {timer, probe, 1000}], G);
answered(audit, _, Reply, Now, G = #gateway{state = State, config = #{audit := Interval}}) ->
    case {is_own(Reply, G), State} of
        {true, serving} -> act({timer, audit, Interval}, G);
        {true, away} -> returned(Now, G);
        {true, probing} -> enter(cleaning, G);
        {true, cleaning} -> G;
        {false, _} -> begun_anew(G)
    end;
answered({clean, Place}, _, Reply, _, G = #gateway{contexts = Contexts}) ->
    case is_ended(Reply) of
        true -> cleaned(kept(gone_from(Place, G#gateway{contexts = lists:delete(Place, Contexts)})));
        false -> act({timer, clean, 1000}, G)
    end;
answered({unknown, Sent}, _, Reply, Now, G = #gateway{unknown = Unknown}) ->
    Known = G#gateway{unknown = lists:delete(Sent, Unknown)},
    case Reply of
        {ok, #{context := Context, results := Results}} when is_integer(Context) ->
            Made = [{Context, T} || {Did, T, #{}} <- Results, Did =:= add orelse Did =:= move, is_integer(T)],
            cleaned(to_end(Made, Now, Known));
        _ -> cleaned(kept(Known))
    end;
answered(_, _, _, _, G) ->
    G.

%% Returns whether a subtraction has succeeded. Errors 411, 430, 431 and 435 mean that the context doesn't exist, or
%% that the termination isn't in it.
is_ended({ok, Reply = #{results := Results}}) ->
    Codes = [Code || {_, _, {error, Code}} <- Results] ++ [Code || #{error := Code} <- [Reply]],
    lists:all(fun(Code) -> lists:member(Code, [411, 430, 431, 435]) end, Codes);
is_ended({error, _}) -> false.

gone_from({Context, all}, G = #gateway{seats = Seats}) -> changed(lobby_seats:ended({all, Context}, Seats), G);
gone_from({_, T}, G = #gateway{seats = Seats}) -> changed(lobby_seats:ended(T, Seats), G).

is_own({ok, #{results := [{audit, T, #{remote := {Remote, _}}}]}}, #gateway{sentinel = {_, T, Remote}}) -> true;
is_own(_, _) -> false.

%% Sends rooms their holdings, once no open request of theirs can change them.
answer_asking(G = #gateway{state = serving, asking = Asking = [_ | _], transactions = T, seats = Seats}) ->
    Open = fun(Room) -> lobby_transactions:awaits(fun({room, Of, _, _}) -> Of =:= Room; (_) -> false end, T) end,
    {Waiting, Ready} = lists:partition(Open, Asking),
    acts([{tell, Room, {holdings, lobby_seats:holdings(Room, Seats)}} || Room <- Ready], G#gateway{asking = Waiting});
answer_asking(G) -> G.

%%% The stored state, and the published load.

kept(G = #gateway{kept = Before, generation = Generation, sentinel = Sentinel}) ->
    #gateway{contexts = Contexts, unknown = Unknown, draining = IsDraining} = G,
    case #{generation => Generation, sentinel => Sentinel, contexts => Contexts, unknown => Unknown,
           draining => IsDraining} of
        Before -> G;
        Kept -> act({keep, Kept}, G#gateway{kept = Kept})
    end.

%% Publishes the load before all other actions, so that a room that learns of a loss doesn't choose this gateway again.
shown(#gateway{state = State, seats = Seats, draining = Is},
      G = #gateway{state = State, seats = Seats, draining = Is}) ->
    G;
shown(_, G = #gateway{shown = Before, out = Out}) ->
    case load(G) of
        Before -> G;
        Load -> G#gateway{shown = Load, out = Out ++ [{load, Load}]}
    end.

load(#gateway{state = serving, seats = Seats, draining = Is}) -> (lobby_seats:load(Seats))#{draining => Is};
load(#gateway{state = drained, seats = Seats}) ->
    (lobby_seats:load(Seats))#{terminations => 0, contexts => 0, draining => true};
load(_) -> none.
