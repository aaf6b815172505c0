%%% @doc Decides who may send SIP messages or connect, and limits each address, so that no address can use up the
%%% capacity. Trusted proxies serve many callers, and have no per-address limits.
-module(lobby_admission).

-export([new/1, message/3, call/4, entered/4, left/2]).
-export_type([limits/0, admission/0]).

%% The limits: the number of calls, the number of calls and rooms of one address, and the number of messages and new
%% calls from one address in a second.
-type limits() :: #{callers := [lobby_auth:network()], proxies := [lobby_auth:network()], max_calls := pos_integer(),
                    max_calls_from := pos_integer(), max_rooms_from := pos_integer(), messages_from := pos_integer(),
                    new_calls_from := pos_integer(), _ => _}.
-record(admission, {limits :: limits(), buckets = lobby_buckets:new() :: lobby_buckets:buckets(),
                    calls = #{} :: #{pid() => {inet:ip4_address(), lobby_room:name()}},
                    %% The number of calls that an address has in each room.
                    rooms = #{} :: #{inet:ip4_address() => #{lobby_room:name() => pos_integer()}}}).
-opaque admission() :: #admission{}.

%% @doc Returns an admission without any calls.
-spec new(limits()) -> admission().
new(Limits) -> #admission{limits = Limits}.

%% @doc Returns whether to read a message from this address. Times are in milliseconds.
-spec message(inet:ip4_address(), Now :: integer(), admission()) -> {boolean(), admission()}.
message(Address, Now, A = #admission{limits = Limits = #{messages_from := Rate}}) ->
    case lobby_auth:sender(Address, Limits) of
        proxy -> {true, A};
        caller -> take(message, Address, Rate, Now, A);
        stranger -> {false, A}
    end.

take(Kind, Address, Rate, Now, A = #admission{buckets = Buckets}) ->
    {Taken, Buckets1} = lobby_buckets:take({Kind, Address}, Rate, Now, Buckets),
    {Taken, A#admission{buckets = Buckets1}}.

%% @doc Returns whether to accept a new call. `full': the maximum number of calls is reached. `too_many': this address
%% has too many calls, or has calls in too many rooms to create another one. `too_fast': this address makes calls too
%% fast. A stranger's attempt isn't counted.
-spec call(inet:ip4_address(), {lobby_room:name(), IsNew :: boolean()}, Now :: integer(), admission()) ->
          {ok | stranger | full | too_many | too_fast, admission()}.
call(Address, {Room, IsNew}, Now, A = #admission{limits = Limits, calls = Calls, rooms = ByAddress}) ->
    #{max_calls := Max, max_calls_from := MaxFrom, max_rooms_from := MaxRooms, new_calls_from := Rate} = Limits,
    Rooms = maps:get(Address, ByAddress, #{}),
    TooMany = lists:sum(maps:values(Rooms)) >= MaxFrom
        orelse IsNew andalso not is_map_key(Room, Rooms) andalso map_size(Rooms) >= MaxRooms,
    case {map_size(Calls) >= Max, lobby_auth:sender(Address, Limits), TooMany} of
        {_, stranger, _} -> {stranger, A};
        {true, _, _} -> {full, A};
        {false, proxy, _} -> {ok, A};
        {false, caller, true} -> {too_many, A};
        {false, caller, false} ->
            {Taken, A1} = take(call, Address, Rate, Now, A),
            {case Taken of true -> ok; false -> too_fast end, A1}
    end.

%% @doc Counts a call, which is identified by its process.
-spec entered(pid(), inet:ip4_address(), lobby_room:name(), admission()) -> admission().
entered(Pid, _, _, A = #admission{calls = Calls}) when is_map_key(Pid, Calls) ->
    A;
entered(Pid, Address, Room, A = #admission{calls = Calls, rooms = ByAddress}) ->
    Rooms = maps:get(Address, ByAddress, #{}),
    A#admission{calls = Calls#{Pid => {Address, Room}},
                rooms = ByAddress#{Address => Rooms#{Room => maps:get(Room, Rooms, 0) + 1}}}.

%% @doc Forgets a call whose process has ended.
-spec left(pid(), admission()) -> admission().
left(Pid, A = #admission{calls = Calls, rooms = ByAddress}) ->
    case maps:take(Pid, Calls) of
        {{Address, Room}, Others} ->
            #{Address := Rooms = #{Room := Count}} = ByAddress,
            Rooms1 = case Count of 1 -> maps:remove(Room, Rooms); _ -> Rooms#{Room := Count - 1} end,
            Left = maps:remove(Address, ByAddress),
            A#admission{calls = Others, rooms = case map_size(Rooms1) of 0 -> Left; _ -> Left#{Address => Rooms1} end};
        error ->
            A
    end.
