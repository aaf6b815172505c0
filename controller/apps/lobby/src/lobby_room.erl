%%% @doc The process of a room: its name, its timers, and its row in the store. `lobby_room_core' makes the decisions. A
%%% room is started when it is created or admits its first member, and restarted from the store.
%%%
%%% The room sends messages `{lobby_room, Name, Event}' to a member's process, which is registered as `{member, Id}'.
%%% The event is `{admitted, Result}', `{report, Report}' or `silent'. The member's process sends events to the room
%%% with `lobby_room:tell/2'.
-module(lobby_room).
-behaviour(gen_server).

-export([is_name/1, checked/1, create/3, call/2, tell/2, notify/2, gateway/1, has_door/1, names/0, exists/1]).
-export([start/1, start_link/1, set_aside/1]).
-export([init/1, handle_continue/2, handle_call/3, handle_cast/2, handle_info/2]).
-export_type([name/0, request/0, error/0]).

-define(MAX_ROOMS, 10000).
-define(TRIES, 3).
%% Milliseconds until a room tries again, for example after its gateway rejected a request, and until it asks again for
%% a missing answer.
-define(SOON, 250).
-define(LATER, 1000).
%% Milliseconds after which an idle room hibernates, and for which a lost gateway may still play packets that it has
%% received.
-define(IDLE, 1000).
-define(PLAYED, 100).

-type name() :: binary().
%% `agree' is answered once the gateway has the desired state, or with an error if that takes too long. `audit' is
%% answered after an audit of the gateway; `describe' and `agrees' are answered immediately.
-type request() :: {rules, add | set, [lobby_rules:rule()]} | {create, [lobby_rules:rule()], lobby_room_core:settings()}
                 | {settings, lobby_room_core:settings()} | agree | audit | describe | agrees.
-type error() :: lobby_room_core:error() | too_many_rooms | no_such_room.
-record(state, {name :: name(), core :: lobby_room_core:room(), retry = none :: {reference(), integer()} | none}).

%% @doc Returns whether a text can be a room's name.
-spec is_name(binary()) -> boolean().
is_name(Text) ->
    re:run(Text, "^[A-Za-z0-9_.-]{1,32}$", [dollar_endonly]) =/= nomatch.

%% @doc Returns the text if it is a valid name. Otherwise, throws `{invalid, Text}'.
-spec checked(binary()) -> name().
checked(Text) ->
    _ = [throw({invalid, <<"a room's name must be 1 to 32 letters, digits or _.-">>}) || not is_name(Text)],
    Text.

%% @doc Creates a room that stays when its last member leaves, or changes an existing room.
-spec create(name(), [lobby_rules:rule()], lobby_room_core:settings()) -> ok | {error, error()}.
create(Name, Rules, Settings) ->
    call(Name, new, {create, Rules, Settings}, ?TRIES).

%% @doc Sends a request to an existing room.
-spec call(name(), request()) -> term() | {error, no_such_room}.
call(Name, Request) ->
    call(Name, old, Request, ?TRIES).

%% Sends a request to a room. If the room ends meanwhile, because it is empty or fails, this tries again, up to three
%% times in all.
call(Name, Kind, Request, Tries) ->
    try
        case started(Name, Kind) of
            ok -> asked(Name, Request);
            Error -> Error
        end
    catch
        exit:{Reason, {gen_server, call, _}} when Tries > 1, Reason =/= timeout ->
            call(Name, Kind, Request, Tries - 1)
    end.

%% By default, a gateway answers or is lost within a second, but a large conference takes many requests.
asked(Name, Request) ->
    gen_server:call(via(Name), Request, 30000).

%% @doc Sends a room an event about a member. The event is lost if the room ends or fails at this moment, so the sender
%% repeats it if there is no answer.
-spec tell(name(), lobby_room_core:event()) -> ok | {error, error()}.
tell(Name, Event) ->
    case started(Name, case element(1, Event) of admit -> new; want -> new; _ -> old end) of
        ok -> gen_server:cast(via(Name), Event);
        Error -> Error
    end.

%% @doc Sends a message to a room, if it is running.
-spec notify(name(), term()) -> ok.
notify(Name, Message) ->
    case lobby_registry:whereis_name({room, Name}) of
        undefined -> ok;
        Pid -> Pid ! Message, ok
    end.

%% @doc Returns the gateway that a room uses, according to the store.
-spec gateway(name() | none) -> lobby_gateway:handle() | none.
gateway(Name) ->
    maps:get(gateway, lobby_store:get(lobby_rooms, Name, #{}), none).

%% @doc Returns whether newcomers wait at the room's door until they are let in.
-spec has_door(name()) -> boolean().
has_door(Name) ->
    maps:get(door, maps:get(settings, lobby_store:get(lobby_rooms, Name, #{}), #{}), false).

%% @doc Returns the names of all rooms in the store.
-spec names() -> [name()].
names() ->
    lists:sort(lobby_store:keys(lobby_rooms)).

%% @doc Returns whether a room is in the store.
-spec exists(name()) -> boolean().
exists(Name) ->
    lobby_store:has(lobby_rooms, Name).

%% Starts a room, if it isn't running. The limit on rooms doesn't apply to rooms in the store.
started(Name, Kind) ->
    case {lobby_registry:whereis_name({room, Name}), exists(Name), lobby_store:size(lobby_rooms) < ?MAX_ROOMS} of
        {undefined, false, _} when Kind =:= old -> {error, no_such_room};
        {undefined, false, false} -> {error, too_many_rooms};
        {undefined, _, _} -> {ok, _} = start(Name), ok;
        {_, _, _} -> ok
    end.

%% @doc Starts a room's process.
-spec start(name()) -> {ok, pid()}.
start(Name) ->
    lobby_keeper:started(room, Name, supervisor:start_child(lobby_room_sup, [Name])).

-spec start_link(name()) -> gen_server:start_ret().
start_link(Name) ->
    lobby_keeper:running(gen_server:start_link(via(Name), ?MODULE, Name, [{hibernate_after, ?IDLE}])).

via(Name) -> {via, lobby_registry, {room, Name}}.

%% @doc Closes a room whose process fails repeatedly: gateways subtract its terminations, and its members' calls end.
%% All other rooms continue.
-spec set_aside(name()) -> ok.
set_aside(Name) ->
    logger:error("room ~ts fails again and again. It is closed", [Name]),
    _ = [lobby_gateway:cast(Gateway, {seats, Gateway, Name, []}) || {Gateway, _} <- lobby_gateway:serving()],
    ok = lobby_store:delete(lobby_rooms, Name),
    ok = lobby_member:hang_up_all(Name),
    lobby_events:publish({room, Name}).

%%% The process.

-spec init(name()) -> {ok, #state{}, {continue, start}}.
init(Name) ->
    SilentAfter = application:get_env(lobby, silent_after, 30000),
    Core = lobby_room_core:new(#{name => Name, run => make_ref(), silent_after => SilentAfter}),
    _ = erlang:send_after(audit_interval(), self(), watch),
    {ok, #state{name = Name, core = Core}, {continue, start}}.

%% Starts from the rows of the room and its members, which are the desired state.
-spec handle_continue(start, #state{}) -> {noreply, #state{}} | {stop, normal, #state{}}.
handle_continue(start, State = #state{name = Name}) ->
    Rows = [Row || {_, Row} <- lobby_store:group(lobby_members, Name)],
    handled({start, lobby_store:get(lobby_rooms, Name, none), Rows}, State).

-spec handle_call(request(), gen_server:from(), #state{}) ->
          {reply, term(), #state{}} | {noreply, #state{}} | {stop, normal, #state{}}.
handle_call(describe, _, State = #state{core = Core}) -> {reply, lobby_room_core:describe(now_ms(), Core), State};
handle_call(agrees, _, State = #state{core = Core}) -> {reply, lobby_room_core:agrees(Core), State};
handle_call({rules, How, Rules}, From, State) -> handled({rules, From, How, Rules, #{}}, State);
handle_call({create, Rules, Settings}, From, State) ->
    handled({rules, From, set, Rules, Settings#{kept => true}}, State);
handle_call({settings, Settings}, From, State) -> handled({settings, From, Settings}, State);
handle_call(agree, From, State) -> handled({agree, From}, State);
handle_call(audit, From, State) -> handled({audit, From}, State).

-spec handle_cast(lobby_room_core:event(), #state{}) -> {noreply, #state{}} | {stop, normal, #state{}}.
%% The delay covers packets that the phone had sent to a lost gateway, which may still play them.
handle_cast(Event = {confirmed, _, _}, State) ->
    _ = erlang:send_after(?PLAYED, self(), Event),
    {noreply, State};
handle_cast(Event, State) ->
    handled(Event, State).

-spec handle_info(term(), #state{}) -> {noreply, #state{}} | {stop, normal, #state{}}.
handle_info({lobby_gateway, {holdings, Holdings}}, State) ->
    handled({holdings, Holdings, others(Holdings)}, State);
handle_info({lobby_gateway, Event}, State) ->
    handled(Event, State);
handle_info(Event = {confirmed, _, _}, State) ->
    handled(Event, State);
handle_info({answer, From, Reply}, State) ->
    ok = lobby_member:answer(From, Reply),
    {noreply, State};
handle_info({timeout, Timer, retry}, State = #state{retry = {Timer, _}}) ->
    handled(retry, State#state{retry = none});
%% The regular audit: a late copy of a request, or another controller, may have changed the flows on the gateway.
handle_info(watch, State = #state{core = Core}) ->
    _ = erlang:send_after(audit_interval(), self(), watch),
    %% Rules that name a member end with the member's call, in every room.
    Gone = [Id || Id <- lobby_room_core:named(Core), not lobby_store:has(lobby_members, Id)],
    lists:foreach(fun(Id) -> ok = gen_server:cast(self(), {gone, Id}) end, Gone),
    handled(watch, State);
handle_info(_, State) ->
    {noreply, State}.

%% Returns the rows of all people with a termination here, who may be members of other rooms.
others(Holdings) ->
    maps:from_list([{Id, Row} || #{member := Id} <- Holdings, {ok, Row} <- [lobby_store:get(lobby_members, Id)]]).

audit_interval() ->
    application:get_env(lobby, room_audit, 5000).

handled(Event, State = #state{name = Name, core = Core}) ->
    {Changed, Actions} = lobby_room_core:handle(Event, now_ms(), Core),
    ok = case application:get_env(lobby, audit_log, none) of none -> ok; _ -> recorded(Core, Changed, Name) end,
    acted(Actions, State#state{core = Changed}).

%% Writes to the audit log: packet counts, and which members have taken or left a termination.
recorded(Before, Now, Name) ->
    [Old, New] = [lobby_room_core:seats(Core) || Core <- [Before, Now]],
    _ = [lobby_audit:received(Id, {Gateway, T}, Count)
         || {Id, Count} <- lobby_room_core:received(Before, Now), #{Id := {Gateway, _, T}} <- [New]],
    _ = [lobby_audit:note([{event, left} | seat(Seat, Name)]) || Seat <- maps:to_list(Old) -- maps:to_list(New)],
    Taken = maps:to_list(New) -- maps:to_list(Old),
    Rows = [Row || Taken =/= [], {Row, _} <- maps:get(members, lobby_room_core:describe(now_ms(), Now))],
    Callers = lobby_call:callers(Rows),
    _ = [lobby_audit:note([{event, seat}, {role, Role} | seat(Seat, Name)]
                          ++ maps:to_list(lobby_json:named(Row, maps:get(Id, Callers, <<>>))))
         || Row = #{id := Id, role := Role} <- Rows, Seat = {Member, _} <- Taken, Member =:= Id],
    ok.

seat({Id, {Gateway, Context, T}}, Name) ->
    [{rooms, [Name]}, {member, Id}, {gateway, Gateway}, {context, Context}, {termination, T}].

acted([], State) ->
    {noreply, State};
acted([stop | Rest], State = #state{name = Name}) ->
    ok = lobby_store:delete(lobby_rooms, Name),
    {noreply, Stopped} = acted(Rest, State),
    ok = lobby_events:publish({room, Name}),
    ok = lobby_registry:unregister_name({room, Name}),
    ok = handed_on(Name),
    {stop, normal, Stopped};
%% The result of a reservation is handled immediately.
acted([{place, Ids, Prefer, Except} | Rest], State = #state{name = Name}) ->
    followed({placed, lobby_placement:place(Name, Ids, Prefer, Except)}, Rest, State);
acted([{reserve, Gateway, Ids} | Rest], State = #state{name = Name}) ->
    followed({reserved, lobby_gateway:reserve(Gateway, Name, Ids)}, Rest, State);
acted([Action | Rest], State) ->
    acted(Rest, act(Action, State)).

%% Passes events that have just arrived to the room's next process.
handed_on(Name) ->
    receive
        {'$gen_cast', Event} -> _ = tell(Name, Event), handed_on(Name)
    after 0 -> ok
    end.

followed(Event, Rest, State) ->
    case acted(Rest, State) of
        {noreply, Acted} -> handled(Event, Acted);
        Stop -> Stop
    end.

act({retry, soon}, State) -> retried(?SOON, State);
act({retry, later}, State) -> retried(?LATER, State);
act(Action, State = #state{name = Name}) ->
    ok = do(Action, Name),
    State.

do({save, Kept}, Name) -> lobby_store:put(lobby_rooms, Name, Kept);
do({request, Gateway, Reference, Action, Ids}, Name) ->
    lobby_gateway:cast(Gateway, {request, Gateway, Name, Reference, Action, Ids});
do({unanswered, Gateway, Reference}, Name) -> lobby_gateway:cast(Gateway, {unanswered, Gateway, Name, Reference});
do({holdings, Gateway}, Name) -> lobby_gateway:cast(Gateway, {holdings, Gateway, Name});
do({seats, Gateway, Ids}, Name) -> lobby_gateway:cast(Gateway, {seats, Gateway, Name, Ids});
do(Event = {release, Gateway, _, _}, _) -> lobby_gateway:cast(Gateway, Event);
do(Event = {'end', Gateway, _}, _) -> lobby_gateway:cast(Gateway, Event);
%% A room that doesn't exist has no members to release.
do({ask, From, Row = #{id := Id, moved := Moved}, Gateway}, _) ->
    case tell(From, {ask, Row, Gateway}) of
        ok -> ok;
        {error, no_such_room} -> gen_server:cast(self(), {left, Id, Moved, {none, none}})
    end;
do({left, To, Id, Moved, Given}, _) ->
    _ = tell(To, {left, Id, Moved, Given}),
    ok;
do({admitted, Id, Result}, Name) -> tell_member(Id, {admitted, Result}, Name);
do({report, Id, Report}, Name) -> tell_member(Id, {report, Report}, Name);
do({silent, Id}, Name) -> tell_member(Id, silent, Name);
do({reply, From, Reply}, _) -> lobby_member:answer(From, Reply);
do({count, Counter}, _) -> lobby_events:count(Counter, none);
do(published, Name) -> lobby_events:publish({room, Name}).

%% Sends an event to a member's process. If that is restarting, it asks the room again later.
tell_member(Id, Event, Name) ->
    case lobby_registry:whereis_name({member, Id}) of
        undefined -> ok;
        Pid -> Pid ! {?MODULE, Name, Event}, ok
    end.

%% Sets the retry timer, unless it is already set to an earlier time.
retried(In, State = #state{retry = Before}) ->
    Time = now_ms() + In,
    case Before of
        {_, Sooner} when Sooner =< Time -> State;
        _ ->
            _ = [erlang:cancel_timer(Timer) || {Timer, _} <- [Before]],
            State#state{retry = {erlang:start_timer(In, self(), retry), Time}}
    end.

now_ms() ->
    erlang:monotonic_time(millisecond).
