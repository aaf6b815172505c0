%%% @doc Members by id: sends requests to the processes of their calls, and carries out the actions of `lobby_person'
%%% for these processes.
-module(lobby_member).

-export([change/2, move/2, hang_up/1, hang_up_all/1, find/1, new/2, act/1, answer/2]).
-export_type([error/0]).

%% The timeout for a process that is restarting, and the interval between attempts, in milliseconds.
-define(PATIENCE, 2000).
-define(LOOK, 20).

-type id() :: lobby_rules:id().
-type error() :: no_member | same_room | lobby_room:error() | {refused, Code :: pos_integer()}.

%% @doc Changes a member's desired state. Returns once the gateway has applied the change.
-spec change(id(), lobby_person:change()) -> ok | {error, error()}.
change(Id, Change) ->
    call(Id, {change, Change}).

%% @doc Moves a member to another room. If that room doesn't admit the member, the member stays.
-spec move(id(), lobby_room:name()) -> ok | {error, error()}.
move(Id, Room) ->
    call(Id, {move, Room}).

%% @doc Ends a member's call.
-spec hang_up(id()) -> ok | {error, no_member}.
hang_up(Id) ->
    call(Id, hang_up).

%% @doc Ends the calls of all members of a room.
-spec hang_up_all(lobby_room:name()) -> ok.
hang_up_all(Room) ->
    lists:foreach(fun({Id, _}) -> hang_up(Id) end, lobby_store:group(lobby_members, Room)).

%% Sends a request to a member's process. A process that was killed restarts with the member's row, so the request is
%% tried again.
call(Id, Request) ->
    call(Id, Request, ?PATIENCE).

call(Id, Request, Left) ->
    try
        gen_statem:call({via, lobby_registry, {member, Id}}, Request, 30000)
    catch
        exit:{noproc, {gen_statem, call, _}} when Left > 0 ->
            case find(Id) of
                {ok, _} -> timer:sleep(?LOOK), call(Id, Request, Left - ?LOOK);
                error -> {error, no_member}
            end;
        exit:{Reason, {gen_statem, call, _}} when Reason =:= noproc; Reason =:= normal -> {error, no_member};
        %% The process failed in the meantime. A change that it had stored is made all the same.
        exit:{Reason, {gen_statem, call, _}} when Reason =/= timeout -> {error, not_yet}
    end.

%% @doc Returns a member's row.
-spec find(id()) -> {ok, lobby_person:row()} | error.
find(Id) ->
    lobby_store:get(lobby_members, Id).

%% @doc Returns the row of a new member of a room.
-spec new(id(), #{room := lobby_room:name(), media := lobby_h248:media(), direction := lobby_sdp:direction(),
                  identity := binary(), name => binary(), call => term(), role => lobby_rules:role(),
                  isolated => boolean(), muted => boolean(), waiting => boolean(), acknowledged => boolean()}) ->
          lobby_person:row().
new(Id, Wanted) ->
    maps:merge(#{id => Id, from => none, version => 1, moved => 1, role => <<"member">>, isolated => false,
                 muted => false, waiting => false, acknowledged => true}, Wanted).

%% @doc Carries out an action of a person, except for answers.
-spec act(lobby_person:action()) -> ok | {admitted, lobby_room:name(), {error, error()}}.
act({store, Row = #{id := Id, room := Room}}) ->
    lobby_store:put(lobby_members, Id, Room, Row);
act({delete, Id}) ->
    lobby_store:delete(lobby_members, Id);
act({admit, Room, Id, From}) ->
    case lobby_room:tell(Room, {admit, Id, From, lobby_room:gateway(From)}) of
        ok -> ok;
        {error, Reason} -> {admitted, Room, {error, Reason}}
    end;
act({want, Room, Row}) ->
    _ = lobby_room:tell(Room, {want, Row}),
    ok;
act({gone, Room, Id}) ->
    _ = lobby_room:tell(Room, {gone, Id}),
    ok.

%% @doc Answers a request. In a pair, the answer waits until the other node has the change, or can no longer take over
%% without it. Until then, the calling process is sent `{answer, From, Answer}' again.
-spec answer(gen_statem:from(), term()) -> ok.
answer(From, Answer) ->
    case lobby_lease:durable() of
        ok -> gen_statem:reply(From, Answer);
        {wait, Time} -> _ = erlang:send_after(Time, self(), {answer, From, Answer}), ok
    end.
