%%% @doc Determines which node of a pair serves: the node whose host has the lease. The lease is the SIP port's address,
%%% which keepalived (VRRP) gives to one host at a time, or a file, for another cluster manager. `lobby_lease_core'
%%% makes the decisions; this process checks the lease, listens to the other node, and acts.
%%%
%%% A serving node exits if it loses the lease, or if the other node began to serve later. It also exits if its own timer
%%% shows a gap in which it may have lost the lease, so that it sends nothing after such a gap. A standby exits if it
%%% may miss changes of the other node. After its restart, it copies the other node's data. So no two nodes change the
%%% same conferences, and no node serves without changes that were answered, except in the cases that README.md lists.
%%%
%%% Each node reports its priority to keepalived, through a program that also notices if the node hangs or exits. A
%%% serving node that reaches a gateway has a higher priority than a standby. If both nodes serve because they were cut
%%% off from each other, the node that began later has the higher priority (except once in 100 terms). A serving node
%%% that hasn't reached a gateway for a while has a lower priority than a standby.
-module(lobby_lease).
-behaviour(gen_server).

-include_lib("kernel/include/file.hrl").

-export([start_link/2, hold/0, durable/0, settled_after/0]).
-export([init/1, handle_call/3, handle_cast/2, handle_info/2]).
-export_type([lease/0]).

%% The lease: an address that only one host has, or a file.
-type lease() :: {address, inet:ip4_address()} | {file, file:filename()}.
%% Milliseconds between checks of the lease, and between checks of the gateways.
-define(TICK, 20).
-define(GATEWAYS, 100).
%% Milliseconds after which keepalived has taken the lease from one of two nodes that were cut off from each other.
-define(SETTLED, 1000).
%% The timeouts, in milliseconds, for mnesia to notice that the other node is disconnected, and for the other node's
%% port to answer.
-define(DISCONNECT, 100).
-define(ANSWER, 200).
%% Indexes in the array of times: the last check of the lease, and the time until which writes aren't durable.
-define(SEEN, 1).
-define(LIMIT, 2).
-define(NEVER, -(1 bsl 62)).

-record(state, {core :: lobby_lease_core:state(), peer :: node(), lease :: lease(), serving :: supervisor:child_spec(),
                times :: atomics:atomics_ref(), ready :: port() | none}).
-type config() :: #{pair := lobby_pair:config(), sip := lobby_sip_message:peer()}.

%% @doc Starts the process. The supervisor `Serving' is started when this node begins to serve.
-spec start_link(config(), supervisor:child_spec()) -> gen_server:start_ret().
start_link(Config, Serving) ->
    gen_server:start_link({local, ?MODULE}, ?MODULE, {Config, Serving}, []).

%% @doc Exits if the node may have lost the lease. Call this before each message is sent.
-spec hold() -> ok.
hold() ->
    case persistent_term:get(?MODULE, none) of
        none -> ok;
        {Times, Gap} -> within(now_ms() - atomics:get(Times, ?SEEN), Gap)
    end.

within(Passed, Gap) when Passed =< Gap -> ok;
within(Passed, _) -> stop(io_lib:format("the lease wasn't checked for ~b ms", [Passed])).

%% @doc Returns whether a node that takes over would have everything that was written before this call. If not, the
%% change that was written can't be answered yet; call this again after the returned time. Call it only after the write
%% has returned.
-spec durable() -> ok | {wait, Milliseconds :: pos_integer()}.
durable() ->
    case persistent_term:get({?MODULE, durable}, none) of
        none -> ok;
        {Times, Peer} -> durable(is_copied(Peer), atomics:get(Times, ?LIMIT) - now_ms())
    end.

%% The wait is short, so that it ends early if the other node ends.
durable(false, Left) when Left > 0 -> {wait, min(Left, ?TICK)};
durable(_, _) -> ok.

%% A write is on the other node before it returns, unless that node was dropped in the meantime. In that case, mnesia
%% removes the node from the running nodes before the write returns, and adds it again only after its restart.
is_copied(Peer) ->
    lists:member(Peer, mnesia:system_info(running_db_nodes)).

%% @doc Returns the milliseconds after which nodes that were cut off from each other agree on which node serves; 0
%% without a pair.
-spec settled_after() -> non_neg_integer().
settled_after() ->
    case persistent_term:get(?MODULE, none) of none -> 0; _ -> ?SETTLED end.

-spec init({config(), supervisor:child_spec()}) -> {ok, #state{}}.
init({#{pair := #{gap := Gap, lease := Lease, ready := Ready, peer := Peer}, sip := {Address, _}}, Serving}) ->
    _ = process_flag(priority, high),
    %% An earlier process may have checked the lease too long ago.
    ok = hold(),
    {ok, _} = mnesia:subscribe(system),
    ok = net_kernel:monitor_nodes(true),
    Times = atomics:new(2, [{signed, true}]),
    ok = atomics:put(Times, ?SEEN, now_ms()),
    {Core, Actions} = lobby_lease_core:new(#{gap => Gap, run => make_ref(), now => now_ms(),
                                             permit => persistent_term:get({?MODULE, permit}, free)}),
    State = acted(Actions, #state{core = Core, peer = Peer, serving = Serving, times = Times,
                                  ready = lobby_pair:open_ready(Ready),
                                  lease = case Lease of address -> {address, Address}; _ -> Lease end}),
    ok = persistent_term:put(?MODULE, {Times, Gap}),
    ok = persistent_term:put({?MODULE, durable}, {Times, Peer}),
    self() ! tick,
    self() ! gateways,
    {ok, State}.

-spec handle_call(term(), gen_server:from(), #state{}) -> {reply, {error, unknown_call}, #state{}}.
handle_call(_, _, State) ->
    {reply, {error, unknown_call}, State}.

-spec handle_cast(term(), #state{}) -> {noreply, #state{}}.
handle_cast(_, State) ->
    {noreply, State}.

-spec handle_info(term(), #state{}) -> {noreply, #state{}}.
handle_info(tick, State = #state{times = Times}) ->
    ok = hold(),
    Before = now_ms(),
    %% The event's time is later than its observations. The lease counts as checked at the earlier time, so that a node
    %% that hangs in between doesn't take the check for newer than it is.
    Seen = seen(State),
    Next = event({tick, Seen, now_ms()}, State),
    ok = atomics:put(Times, ?SEEN, Before),
    _ = erlang:send_after(?TICK, self(), tick),
    {noreply, Next};
handle_info(Message, State) ->
    {noreply, lists:foldl(fun event/2, State, events(Message, State))}.

events(gateways, _) ->
    _ = erlang:send_after(?GATEWAYS, self(), gateways),
    [{reaches, now_ms()} || whereis(lobby_serving) =/= undefined andalso lobby_gateway:any_serves()];
events({?MODULE, Node, Said = #{}}, #state{peer = Node}) -> [{heard, Said, now_ms()}];
events({nodeup, Node}, #state{peer = Node}) -> [{connected, now_ms()}];
events({nodedown, Node}, #state{peer = Node}) -> [{lost, now_ms()}];
events({gone, Asked}, _) -> [{gone, Asked}];
events({mnesia_system_event, {inconsistent_database, _, _}}, _) -> [inconsistent];
events({Ready, {exit_status, Status}}, #state{ready = Ready}) ->
    stop(io_lib:format("the program that reports this node's priority exited with status ~b", [Status]));
events(_, _) -> [].

event(Event, State = #state{core = Core}) ->
    {Next, Actions} = lobby_lease_core:handle(Event, Core),
    acted(Actions, State#state{core = Next}).

seen(#state{peer = Peer, lease = Lease}) ->
    Open = lobby_store:is_open(),
    #{open => Open, term => case Open of true -> lobby_store:get(lobby_settings, term, 0); false -> 0 end,
      lease => has(Lease), connected => lists:member(Peer, nodes()), copied => is_copied(Peer)}.

has({address, Address}) ->
    {ok, Interfaces} = inet:getifaddrs(),
    lists:any(fun({_, Options}) -> lists:member({addr, Address}, Options) end, Interfaces);
%% Bypasses the file server's process, which other processes may keep busy.
has({file, File}) ->
    case file:read_file_info(File, [raw]) of {ok, #file_info{type = regular}} -> true; _ -> false end.

acted(Actions, State) ->
    lists:foreach(fun(Action) -> ok = act(Action, State) end, Actions),
    State.

act({limit, Limit}, #state{times = Times}) ->
    atomics:put(Times, ?LIMIT, case Limit of none -> ?NEVER; _ -> Limit end);
act({say, Said}, #state{peer = Peer}) ->
    _ = erlang:send({?MODULE, Peer}, {?MODULE, node(), Said}, [noconnect, nosuspend]),
    ok;
act({ready, Value}, #state{ready = Ready}) ->
    lobby_pair:say_ready(Ready, Value);
act({ask, Asked}, #state{peer = Peer}) ->
    Self = self(),
    _ = spawn_link(fun() -> [Self ! {gone, Asked} || lobby_pair:has_ended(Peer, ?ANSWER)] end),
    ok;
act({keep, Permit}, _) ->
    persistent_term:put({?MODULE, permit}, Permit);
act(follow, #state{peer = Peer}) ->
    lobby_store:follow(Peer);
act(drop, #state{peer = Peer}) ->
    _ = erlang:disconnect_node(Peer),
    ok;
%% A separate process starts to serve, because that may take longer than the permitted gap between checks of the lease.
act({serve, Term}, #state{peer = Peer, serving = Serving}) ->
    logger:notice("this node serves"),
    _ = spawn_link(fun() -> serve(Term, Peer, Serving) end),
    ok;
act({stop, Why}, _) ->
    stop(Why).

serve(Term, Peer, Serving) ->
    ok = noticed(Peer, ?DISCONNECT),
    ok = lobby_store:put(lobby_settings, term, Term),
    ok = lobby_store:follow(none),
    started(supervisor:start_child(lobby_sup, Serving)).

%% Waits until mnesia has noticed that a node was dropped, but at most for this many milliseconds.
noticed(Peer, Left) ->
    case is_copied(Peer) andalso not lists:member(Peer, nodes()) of
        true when Left > 0 -> timer:sleep(1), noticed(Peer, Left - 1);
        _ -> ok
    end.

started({ok, _}) -> ok;
%% This process failed, and the supervisor has already restarted the serving processes.
started({error, {already_started, _}}) -> ok;
started({error, {Reason, _}}) -> stop(io_lib:format("it can't start to serve: ~0P", [Reason, 20])).

now_ms() ->
    erlang:monotonic_time(millisecond).

-spec stop(iodata()) -> no_return().
stop(Why) ->
    io:format(standard_error, "lobby: this node ends itself: ~ts~n", [Why]),
    halt(3, [{flush, false}]).
