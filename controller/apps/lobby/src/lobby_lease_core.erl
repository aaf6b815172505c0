%%% @doc The decisions of a node of a pair: when it serves or exits, when it drops the other node, and until when the
%%% other node may take over without the latest writes. This module uses no processes, clocks or mnesia. Events carry
%%% times, in milliseconds of the node's own clock.
%%%
%%% A standby takes over only while it has a grant. Each of its beats carries a stamp, its own time. The serving node
%%% grants by sending back the last stamp, if the standby has a copy of all writes. The grant ends ALONE after that
%%% stamp. A late or duplicate beat doesn't extend a grant, and no two clocks are compared: the standby counts from the
%%% time when it sent the stamp, and the serving node from the time when it received the stamp, which is later. If the
%%% standby is lost, changes that it doesn't have may be answered once the last grant, or the standby itself, has ended.
%%%
%%% A node may take over without a grant until it hears that the other node serves.
-module(lobby_lease_core).

-export([new/1, handle/2]).
-export_type([options/0, event/0, action/0, seen/0, said/0, permit/0, state/0]).

%% Milliseconds between beats; milliseconds after which a standby without a grant exits; and a margin for clocks that
%% differ in speed.
-define(BEAT, 100).
-define(ALONE, 3000).
-define(DRIFT, 10).
%% Milliseconds after which a serving node that reaches no gateway lowers its priority.
-define(UNREACHED, 10000).
%% The values that are reported to keepalived, which adds them to a priority of 100. With -254, a node doesn't get the
%% lease. A serving node adds its term, modulo ?TERMS.
-define(WAITING, -254).
-define(STANDBY, 0).
-define(SERVING, 20).
-define(TERMS, 100).
-define(USELESS, -20).

-type time() :: integer().
%% A node's role. A term counts how often a node of the pair has begun to serve.
-type role() :: waiting | standby | {serving, Term :: pos_integer()}.
%% Identifies a process of a node.
-type run() :: term().
%% A beat: the sender's role and stamp, the receiver's last stamp if it is granted, and the receiver's process from
%% which the sender has heard that the receiver serves.
-type said() :: #{role := role(), sent := stamp(), granted := stamp() | none, told := run() | none}.
-type stamp() :: {run(), time()}.
%% The state that outlives the process: the node may take over without a grant, needs one because the other node serves,
%% or has begun to serve.
-type permit() :: free | told | serves.
%% The observations at a tick: whether the store is open, its last term, whether this host has the lease, whether the
%% other node is connected, and whether writes are copied to that node.
-type seen() :: #{open := boolean(), term := non_neg_integer(), lease := boolean(), connected := boolean(),
                  copied := boolean()}.
%% `gone': the check that was requested at this time showed that the other node has ended.
-type event() :: {tick, seen(), time()} | {heard, said(), time()} | {connected | lost | gone | reaches, time()}
               | inconsistent.
%% `limit': sets the time until which the other node may take over without the writes that follow. `ask': checks whether
%% the other node has ended.
-type action() :: {limit, time() | none} | {say, said()} | {ready, integer()} | {ask, time()} | {keep, permit()}
                | follow | drop | {serve, Term :: pos_integer()} | {stop, iodata()}.
%% `gap': milliseconds without a beat after which the serving node drops the other one.
-type options() :: #{gap := pos_integer(), run := run(), permit := permit(), now := time()}.

%% The other node's last beat, and its time. `lost': the other node has been silent or disconnected since then.
-record(peer, {role :: role(), sent :: stamp(), told :: run() | none, at :: time(), lost = false :: boolean()}).
%% The process of the serving other node (`none' if only an earlier process of this node heard from it), the time when
%% this node heard that it serves, and the end of the last grant.
-record(told, {by = none :: run() | none, since :: time(), until = none :: time() | none}).
-record(state, {gap :: pos_integer(), run :: run(), began :: time(), role = waiting :: role(),
                peer = unheard :: unheard | gone | #peer{}, connected = false :: boolean(),
                permit :: free | serves | #told{}, granted = none :: time() | none, beat :: time(), reached :: time()}).
-opaque state() :: #state{}.

%% @doc Returns the state of a node whose process has just started.
-spec new(options()) -> {state(), [action()]}.
new(#{gap := Gap, run := Run, permit := Kept, now := Now}) ->
    Permit = case Kept of told -> #told{since = Now}; _ -> Kept end,
    State = #state{gap = Gap, run = Run, began = Now, permit = Permit, beat = Now - ?BEAT, reached = Now},
    {State, [{limit, limit(State)}]}.

%% @doc Handles an event. The actions must be carried out in this order, so that a limit is in effect before a grant is
%% sent.
-spec handle(event(), state()) -> {state(), [action()]}.
handle(Event, State) ->
    try event(Event, State) of
        {Next, Actions} -> {Next, [{limit, limit(Next)} | Actions]}
    catch
        throw:{stop, Why} -> {State, [{stop, Why}]}
    end.

event({tick, Seen = #{connected := Connected}, Now}, State) ->
    {Opened, Follow} = opened(Seen, State#state{connected = Connected}),
    {Served, Serve} = looked(Seen, Now, Opened),
    {Dropped, Drop} = silent(Now, Served),
    {Beaten, Beat} = beaten(Seen, Now, Dropped),
    {Beaten, Follow ++ Serve ++ Drop ++ Beat};
event({heard, Said, Now}, State) ->
    heard(Said, Now, State);
%% The other node hears which node serves before it can have a copy.
event({connected, Now}, State) ->
    {State#state{connected = true}, [say(none, Now, State)]};
event({lost, Now}, State) ->
    Next = lost(State#state{connected = false}),
    {Next, ask(Now, Next)};
%% The other node has been heard since the check was requested, so it has restarted.
event({gone, Asked}, State = #state{peer = #peer{at = At}}) when At >= Asked ->
    {State, []};
event({gone, _}, State) ->
    {State#state{peer = gone, granted = none}, []};
event({reaches, Now}, State) ->
    {State#state{reached = Now}, []};
event(inconsistent, #state{role = standby}) ->
    throw({stop, "the nodes were disconnected, and the other one serves"});
event(inconsistent, State) ->
    {State, []}.

%%% Ticks.

%% Makes a node with an open store a standby. A node that is connected with the other one first waits to hear whether
%% that one serves, unless it served itself. It follows a serving node, so that it doesn't load outdated data at its
%% next start.
opened(#{open := true}, State = #state{role = waiting, connected = Connected, peer = Peer, permit = Permit})
  when not Connected; Peer =/= unheard; Permit =:= serves ->
    {State#state{role = standby}, [follow || is_record(Permit, told)]};
opened(_, State) ->
    {State, []}.

%% A node that has served exits if it doesn't have the lease, even if this process doesn't serve yet. A standby that has
%% heard a serving node exits if it has no valid grant ALONE later, because it may miss changes of the other node.
looked(#{lease := false}, _, #state{permit = serves}) ->
    throw({stop, "another node has the lease"});
looked(_, Now, #state{role = standby, permit = #told{since = Since, until = Until}})
  when Now > Since + ?ALONE, Until =:= none orelse Now > Until ->
    throw({stop, "the serving node is silent, but this node doesn't have the lease"});
looked(#{lease := true, term := Term}, Now, State = #state{role = standby, permit = Permit}) ->
    case Permit of
        #told{until = Until} when Until =:= none; Now > Until -> {State, []};
        _ -> serve(Term + 1, Now, State)
    end;
looked(_, _, State) ->
    {State, []}.

%% Begins to serve. If the other node served until now, it has lost the lease or hangs. This node notifies it and drops
%% it, so that writes don't wait for it.
serve(Term, Now, State = #state{peer = Peer}) ->
    Next = State#state{role = {serving, Term}, permit = serves, reached = Now},
    Drop = case Peer of #peer{role = {serving, _}} -> [drop]; _ -> [] end,
    {Next, [{keep, serves}, say(none, Now, Next)] ++ Drop ++ [{serve, Term}]}.

%% Drops a silent node, because writes would wait for a node that hangs.
silent(Now, State = #state{role = {serving, _}, gap = Gap, peer = #peer{at = At, lost = false}})
  when Now - At > Gap ->
    {lost(State), [drop]};
silent(_, State) ->
    {State, []}.

lost(State = #state{peer = Peer = #peer{}}) -> State#state{peer = Peer#peer{lost = true}};
lost(State) -> State.

beaten(Seen, Now, State = #state{beat = Last}) when Now - Last >= ?BEAT ->
    {Grant, Next} = grant(Seen, State#state{beat = Now}),
    {Next, [say(Grant, Now, Next), {ready, value(Now, Next)} | ask(Now, Next)]};
beaten(_, _, State) ->
    {State, []}.

grant(#{copied := true}, State = #state{role = {serving, _}, run = Run, peer = Peer}) ->
    case Peer of
        #peer{role = standby, told = Run, lost = false, sent = Sent, at = At} ->
            {Sent, State#state{granted = At + ?ALONE + ?DRIFT}};
        _ -> {none, State}
    end;
grant(_, State) ->
    {none, State}.

say(Grant, Now, #state{role = Role, run = Run, permit = Permit}) ->
    {say, #{role => Role, sent => {Run, Now}, granted => Grant,
            told => case Permit of #told{by = By} -> By; _ -> none end}}.

value(_, #state{role = waiting}) -> ?WAITING;
value(_, #state{role = standby}) -> ?STANDBY;
value(Now, #state{reached = Since}) when Now - Since > ?UNREACHED -> ?USELESS;
value(_, #state{role = {serving, Term}}) -> ?SERVING + Term rem ?TERMS.

%% Checks whether the other node has ended, if it is away but may still take over. Changes can't be answered until it
%% has ended, or may no longer take over.
ask(Now, State = #state{role = {serving, _}, peer = Peer, connected = Connected}) ->
    Away = case Peer of #peer{lost = Lost} -> Lost; _ -> not Connected end,
    Limit = limit(State),
    [{ask, Now} || Away, Limit =/= none, Limit > Now];
ask(_, _) ->
    [].

%%% The other node's beats.

heard(#{role := {serving, Later}}, _, #state{role = {serving, Term}}) when Later > Term ->
    throw({stop, "the other node has started to serve"});
heard(#{role := {serving, _}}, _, #state{role = Role, permit = serves}) when not is_tuple(Role) ->
    throw({stop, "the other node has started to serve"});
heard(Said = #{role := Role, sent := Sent, told := Told}, Now, State = #state{granted = Before}) ->
    %% A waiting process doesn't have the grants of its predecessor.
    Granted = case Role of waiting -> none; _ -> Before end,
    told(Said, Now, State#state{peer = #peer{role = Role, sent = Sent, told = Told, at = Now}, granted = Granted}).

told(#{role := Role}, _, State = #state{permit = Permit}) when not is_tuple(Role); Permit =:= serves ->
    {State, []};
told(#{sent := {By, _}, granted := Granted}, _, State = #state{run = Run, permit = Told = #told{by = By}}) ->
    case Granted of
        {Run, Sent} -> {State#state{permit = Told#told{until = Sent + ?ALONE}}, []};
        _ -> {State, []}
    end;
%% This node follows the other one before it answers, so that a node that has answered never restarts with its old copy.
told(#{sent := {By, _}}, Now, State = #state{role = Role}) ->
    Next = State#state{permit = #told{by = By, since = Now}},
    {Next, [{keep, told}] ++ [follow || Role =:= standby] ++ [say(none, Now, Next)]}.

%% Returns the end of the time in which the other node may take over without the latest writes. Grants of this node's
%% earlier processes end at most ALONE after this process started. A standby that hasn't confirmed that this node serves
%% may take over without a grant.
limit(#state{peer = unheard, began = Began}) ->
    Began + ?ALONE + ?DRIFT;
limit(#state{run = Run, peer = #peer{role = standby, told = Told, at = At}}) when Told =/= Run ->
    At + ?ALONE + ?DRIFT;
limit(#state{granted = Granted}) ->
    Granted.
