%%% @doc The process of a gateway: its socket, its timers, and its rows in the store. `lobby_gateway_core' makes the
%%% decisions.
%%%
%%% Rooms send requests to this process. It sends them messages such as `{lobby_gateway, {answer, Reference, Answer}}'
%%% by name, so that these also reach a room that was restarted in the meantime.
-module(lobby_gateway).
-behaviour(gen_server).

-export([start_link/1, new_loads/0, cast/2, reserve/3, drain/2, name/1, serving/0, any_serves/0]).
-export([init/1, handle_call/3, handle_cast/2, handle_info/2]).
-export_type([name/0, handle/0, config/0]).

%% Milliseconds between searches for orphaned terminations.
-define(ORPHANS, 5000).

-type name() :: term().
%% A gateway, with a number that rises each time the gateway is lost or drained.
-type handle() :: {name(), Generation :: pos_integer()}.
%% `here': the controller's own address, which the gateway must accept. `audit': milliseconds between audits. `returns':
%% milliseconds for which the controller waits for a lost gateway to return; 0 for a gateway without a journal.
-type config() :: #{name := name(), address := lobby_h248:endpoint(), here := inet:ip4_address(),
                    retry := pos_integer(), tries := pos_integer(), quiet := pos_integer(), audit := pos_integer(),
                    returns := non_neg_integer(), terminations := pos_integer(), contexts := pos_integer()}.
-record(state, {name :: name(), socket :: gen_udp:socket(), core :: lobby_gateway_core:gateway(),
                timers = #{} :: #{atom() => reference()}}).

-spec start_link(config()) -> gen_server:start_ret().
start_link(Config = #{name := Name}) ->
    gen_server:start_link(via(Name), ?MODULE, Config, []).

via(Name) -> {via, lobby_registry, {gateway, Name}}.

%% @doc Creates the table of the gateways' loads, which belongs to the supervisor.
-spec new_loads() -> ok.
new_loads() ->
    ?MODULE = ets:new(?MODULE, [named_table, public, {read_concurrency, true}]),
    ok.

%% @doc Sends an event from a room to a gateway's process. A room that gets no answer asks for it again.
-spec cast(handle(), tuple()) -> ok.
cast({Name, _}, Event) -> gen_server:cast(via(Name), Event).

%% @doc Reserves seats for these members of a room. Returns `false' if the gateway has too few seats or contexts, has
%% been lost or drained, or its process isn't running.
-spec reserve(handle(), lobby_room:name(), [lobby_rules:id()]) -> boolean().
reserve(Handle = {Name, _}, Room, Ids) ->
    try gen_server:call(via(Name), {reserve, Handle, Room, Ids})
    catch exit:{_, {gen_server, call, _}} -> false
    end.

%% @doc Starts or stops draining a gateway. While a gateway is being drained, its rooms move to other gateways that have
%% seats, and no room chooses it.
-spec drain(name(), boolean()) -> ok | {error, no_gateway}.
drain(Name, Is) ->
    try gen_server:call(via(Name), {drain, Is})
    catch exit:{noproc, {gen_server, call, _}} -> {error, no_gateway}
    end.

%% @doc Returns the name of a handle's gateway.
-spec name(handle()) -> name().
name({Name, _}) -> Name.

%% @doc Returns the gateways that serve or are drained, with their loads.
-spec serving() -> [{handle(), lobby_placement:load()}].
serving() ->
    [{Handle, Load} || {Name, Handle, Load} <- lists:sort(ets:tab2list(?MODULE)),
                       lobby_registry:whereis_name({gateway, Name}) =/= undefined].

%% @doc Returns whether at least one gateway serves or is drained.
-spec any_serves() -> boolean().
any_serves() ->
    case ets:info(?MODULE, size) of undefined -> false; Serving -> Serving > 0 end.

-spec init(config()) -> {ok, #state{}}.
init(Config = #{name := Name, address := {Address, Port}, here := Here}) ->
    %% An answer of the gateway has up to 64,036 bytes.
    {ok, Socket} = gen_udp:open(0, [binary, {ip, Here}, {active, 100}, {recbuf, 262144}, {buffer, 65536}]),
    ok = gen_udp:connect(Socket, Address, Port),
    {ok, Own} = inet:port(Socket),
    Core = lobby_gateway_core:new(#{
        config => Config, sender => {number(Name), Own}, settled => lobby_lease:settled_after(),
        kept => lobby_store:get(lobby_gateways, Name, none), first => 2 + erlang:system_time(100) band 16#7FFFFFFF,
        entries => [{T, Entry} || {{_, T}, Entry} <- lobby_store:group(lobby_terminations, Name)]}),
    _ = erlang:send_after(?ORPHANS, self(), orphans),
    Earlier = [Request || {_, Request} <- lobby_store:group(lobby_requests, Name)],
    {ok, handled({start, Earlier}, #state{name = Name, socket = Socket, core = Core})}.

%% Returns this run's number, which is stored before it is used. The number is at least the Unix time, so that it
%% doesn't fall if the store is lost or outdated. In a pair, one node uses even numbers and the other one odd numbers,
%% so that no number is used twice, even if the nodes are disconnected.
number(Name) ->
    Above = max(erlang:system_time(second), 1 + lobby_store:get(lobby_settings, {number, Name}, 0)),
    Number = Above + (Above + length([N || N <- mnesia:system_info(db_nodes), N < node()])) rem 2,
    ok = lobby_store:put(lobby_settings, {number, Name}, Number),
    Number.

-spec handle_call({reserve, handle(), lobby_room:name(), [lobby_rules:id()]} | {drain, boolean()}, gen_server:from(),
                  #state{}) -> {noreply, #state{}}.
handle_call({reserve, Handle, Room, Ids}, From, State) ->
    {noreply, handled({reserve, From, Handle, Room, Ids}, State)};
handle_call({drain, Is}, From, State) ->
    {noreply, handled({drain, From, Is}, State)}.

-spec handle_cast(lobby_gateway_core:event(), #state{}) -> {noreply, #state{}}.
handle_cast(Event, State) -> {noreply, handled(Event, State)}.

-spec handle_info(term(), #state{}) -> {noreply, #state{}}.
handle_info({udp, Socket, _, _, Datagram}, State = #state{name = Name, socket = Socket}) ->
    case lobby_h248:decode(Datagram) of
        {ok, Message} -> {noreply, handled({received, Message}, State)};
        {error, not_understood} ->
            logger:warning("gateway ~p sent a datagram that can't be decoded", [Name]),
            {noreply, State}
    end;
handle_info({udp_passive, Socket}, State = #state{socket = Socket}) ->
    ok = inet:setopts(Socket, [{active, 100}]),
    {noreply, State};
handle_info({udp_error, Socket, econnrefused}, State = #state{socket = Socket}) ->
    {noreply, handled(refused, State)};
handle_info({timeout, Timer, Name}, State = #state{timers = Timers}) ->
    case Timers of
        #{Name := Timer} -> {noreply, handled({timer, Name, remote()}, State)};
        #{} -> {noreply, State}
    end;
handle_info(Event = {durable, _}, State) ->
    {noreply, case lobby_lease:durable() of
        ok -> handled(Event, State);
        {wait, Time} -> _ = erlang:send_after(Time, self(), Event), State
    end};
handle_info(orphans, State) ->
    _ = erlang:send_after(?ORPHANS, self(), orphans),
    handle_info(look, State);
handle_info(look, State = #state{core = Core}) ->
    {noreply, case lobby_gateway_core:orphans(fun lobby_member:find/1, fun lobby_room:gateway/1, Core) of
        [] -> State;
        Orphans -> handled({orphans, Orphans}, State)
    end};
handle_info(_, State) -> {noreply, State}.

%% Returns a random address, so that only this controller can have chosen it.
remote() -> {{127, rand(256), rand(256), rand(256)}, 1 + rand(65535)}.

rand(N) -> rand:uniform(N) - 1.

handled(Event, State = #state{core = Core}) ->
    {Changed, Actions} = lobby_gateway_core:handle(Event, erlang:monotonic_time(millisecond), Core),
    lists:foldl(fun act/2, State#state{core = Changed}, Actions).

act({timer, Name, Time}, State) ->
    started(Name, Time, [], State);
act({deadline, Time}, State) ->
    started(transactions, Time, [{abs, true}], State);
act(Action, State) ->
    ok = do(Action, State),
    State.

do({send, Message}, #state{socket = Socket}) ->
    ok = lobby_lease:hold(),
    %% A message that can't be sent is retransmitted, like a lost datagram.
    _ = gen_udp:send(Socket, Message),
    ok;
do(Event = {durable, _}, _) ->
    self() ! Event,
    ok;
do({keep, Kept}, #state{name = Name}) -> lobby_store:put(lobby_gateways, Name, Kept);
do({request, Number, none}, #state{name = Name}) -> lobby_store:delete(lobby_requests, {Name, Number});
do({request, Number, Request}, #state{name = Name}) ->
    lobby_store:put(lobby_requests, {Name, Number}, Name, Request);
do({entry, {put, T, Entry}}, #state{name = Name}) -> lobby_store:put(lobby_terminations, {Name, T}, Name, Entry);
do({entry, {delete, T}}, #state{name = Name}) -> lobby_store:delete(lobby_terminations, {Name, T});
do({tell, Room, Message}, _) -> lobby_room:notify(Room, {?MODULE, Message});
do({reply, From, Reply}, _) -> gen_server:reply(From, Reply);
do({load, none}, #state{name = Name}) ->
    true = ets:delete(?MODULE, Name),
    ok;
do({load, Load}, #state{name = Name, core = Core}) ->
    true = ets:insert(?MODULE, {Name, lobby_gateway_core:handle_of(Core), Load}),
    ok;
do({publish, Event}, #state{name = Name}) ->
    _ = [self() ! look || Event =:= serving],
    lobby_events:publish({gateway, Name, Event});
do({count, Counter}, #state{name = Name}) -> lobby_events:count(Counter, Name);
do({log, Level, Format, Values}, _) -> logger:log(Level, Format, Values).

started(Name, Time, Options, State = #state{timers = Timers}) ->
    _ = [erlang:cancel_timer(Timer) || #{Name := Timer} <- [Timers]],
    State#state{timers = case Time of
        infinity -> maps:remove(Name, Timers);
        _ -> Timers#{Name => erlang:start_timer(Time, self(), Name, Options)}
    end}.
