%% Members without phones, for tests. Their processes carry out the actions of `lobby_person', like the process of a
%% call. This module also has requests to rooms.
-module(people).

-export([join/3, join/5, joins/2, leave/1, move/2, update/2, isolate/1, release/1, start_again/1]).
-export([create/2, describe/1, add_rules/2, set_rules/2, audit/1, agrees/1, isolation/1]).

-record(state, {person, local = none, parent, caller = none}).

%% Adds a member. The calling process is sent `{moved, Id, Local}' when the member's address on the gateway changes, and
%% `{silent, Id}' if no packets arrive from the member.
join(Room, Id, Role) ->
    join(Room, Id, Role, {{{127, 0, 0, 1}, 40000}, pcmu}, sendrecv).

join(Room, Id, Role, Media, Direction) ->
    joins(Id, #{room => Room, role => Role, media => Media, direction => Direction}).

%% Adds a member. With a `caller', which has the member's media, the member talks to the current address on the gateway.
joins(Id, Wanted) ->
    Parent = self(),
    Caller = maps:get(caller, Wanted, none),
    Media = case Caller of none -> #{}; _ -> #{media => caller:media(Caller), direction => sendrecv} end,
    Row = lobby_member:new(Id, maps:merge(Media#{identity => <<"test">>}, maps:remove(caller, Wanted))),
    Pid = spawn(fun() -> init(lobby_person:new(Row), Parent, Caller) end),
    Monitor = monitor(process, Pid),
    Pid ! {join, self(), Monitor},
    receive
        {Monitor, Result} -> demonitor(Monitor, [flush]), Result;
        {'DOWN', Monitor, process, Pid, Reason} -> {error, Reason}
    end.

%% Restarts a member's process, as after a failure.
start_again(Id) ->
    {ok, Row} = lobby_member:find(Id),
    Parent = self(),
    Pid = spawn(fun() -> init(lobby_person:restored(Row), Parent, none) end),
    Pid ! again,
    lobby_case:until(fun() -> lobby_registry:whereis_name({member, Id}) =:= Pid end),
    ok.

%% Ends a member's call, and waits until no termination of the member is left.
leave(Id) ->
    Result = lobby_member:hang_up(Id),
    _ = lobby_case:until(fun() -> lists:all(fun({_, _, {version, _, #{member := Of}}, _}) -> Of =/= Id end, ets:tab2list(lobby_terminations)) end),
    Result.

move(Id, To) -> with_local(Id, lobby_member:move(Id, To)).
update(Id, Change) -> with_local(Id, lobby_member:change(Id, Change)).
isolate(Id) -> lobby_member:change(Id, #{isolated => true}).
release(Id) -> lobby_member:change(Id, #{isolated => false}).

with_local(Id, ok) -> gen_statem:call({via, lobby_registry, {member, Id}}, local);
with_local(_, Error) -> Error.

init(Person, Parent, Caller) ->
    #{id := Id} = lobby_person:row(Person),
    yes = lobby_registry:register_name({member, Id}, self()),
    loop(#state{person = Person, parent = Parent, caller = Caller}).

loop(State = #state{local = Local}) ->
    receive
        {join, From, Tag} -> loop(event({join, {joins, {From, Tag}}}, State));
        again -> loop(event(again, State));
        {lobby_room, Room, {admitted, Result}} -> loop(event({admitted, Room, Result}, State));
        {lobby_room, Room, {report, Report}} -> loop(told(Report, Room, event({report, Room, Report}, State)));
        {lobby_room, _, silent} -> State#state.parent ! {silent, id(State)}, loop(State);
        {answer, From, Answer} -> lobby_member:answer(From, Answer), loop(State);
        {'$gen_call', From, local} -> gen_statem:reply(From, {ok, Local}), loop(State);
        {'$gen_call', From, {change, Change}} -> loop(event({change, {asked, From}, Change}, State));
        {'$gen_call', From, {move, To}} -> loop(event({move, {asked, From}, To}, State));
        {'$gen_call', From, hang_up} -> _ = event(leave, State), gen_statem:reply(From, ok)
    after 1000 ->
        loop(case lobby_person:is_settled(State#state.person) of true -> State; false -> event(again, State) end)
    end.

id(#state{person = Person}) -> maps:get(id, lobby_person:row(Person)).

event(Event, State = #state{person = Person}) ->
    {Changed, Actions} = lobby_person:handle(Event, Person),
    lists:foldl(fun act/2, State#state{person = Changed}, Actions).

act({answer, {asked, From}, Answer}, State) ->
    lobby_member:answer(From, case Answer of {ok, _} -> ok; _ -> Answer end),
    State;
%% The process of a member who isn't admitted ends.
act({answer, {joins, {From, Tag}}, Answer}, State) ->
    case Answer of {error, _} -> _ = event(leave, State); {ok, _} -> ok end,
    From ! {Tag, Answer},
    case Answer of
        {error, _} -> exit(normal);
        {ok, {Address, _} = Local} -> talk(Address, State), State#state{local = Local}
    end;
act(Action, State) ->
    case lobby_member:act(Action) of
        ok -> State;
        {admitted, Room, Error} -> event({admitted, Room, Error}, State)
    end.

%% The member's phone accepts the new address, and confirms it.
told({holds, _, Local = {Address, _}, _}, Room, State = #state{local = Before, parent = Parent}) when Local =/= Before ->
    talk(Address, State),
    Before =:= none orelse (Parent ! {moved, id(State), Local}),
    lobby_room:tell(Room, {confirmed, id(State), Local}),
    State#state{local = Local};
told({holds, _, Local, false}, Room, State = #state{local = Local}) ->
    lobby_room:tell(Room, {confirmed, id(State), Local}),
    State;
told(_, _, State) ->
    State.

talk(_, #state{caller = none}) -> ok;
talk(Address, #state{caller = Caller}) -> caller:talk(Caller, Address).

%%% Rooms.

create(Room, Rules) -> lobby_room:create(Room, Rules, #{}).
add_rules(Room, Rules) -> lobby_room:call(Room, {rules, add, Rules}).
set_rules(Room, Rules) -> lobby_room:call(Room, {rules, set, Rules}).
audit(Room) -> lobby_room:call(Room, audit).
agrees(Room) -> lobby_room:call(Room, agrees).

%% Returns a room's description, with the members by id, and without `sends'.
describe(Room) ->
    case lobby_room:call(Room, describe) of
        About = #{members := Members} ->
            (maps:remove(sends, About))#{members := maps:from_list([{Id, case T of none -> Row; _ -> Row#{termination => T} end} || {Row = #{id := Id}, T} <- Members])};
        Error -> Error
    end.

%% Returns rules of the room that isolate a member.
isolation(Id) -> [{deny, {member, Id}, everyone}, {deny, everyone, {member, Id}}].
