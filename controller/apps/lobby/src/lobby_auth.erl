%%% @doc Identifies callers by address, by a password digest (RFC 3261, section 22, and RFC 8760), or by the identity
%%% that a trusted proxy asserts (RFC 3325).
%%%
%%% A nonce has a signature that covers its time, the method and the caller's address. So a nonce takes no memory until
%%% it is used with a correct password; then its last count is kept. When the process that owns the secret restarts, all
%%% nonces become invalid.
-module(lobby_auth).

-include_lib("p1_sip/include/esip.hrl").

-export([is_in/2, sender/2, new/1, check/4, identity/1, asserted/2, may_offer/3]).
-export_type([network/0, users/0, algorithm/0, auth/0]).

-type network() :: {inet:ip4_address(), Bits :: 0..32}.
%% Passwords by name. If there are no users, callers need no password.
-type users() :: #{Name :: binary() => Password :: binary()}.
-type algorithm() :: md5 | sha256.
-record(auth, {secret :: binary(), algorithms :: [algorithm()],
               %% The last count (nc) of each nonce that was used.
               used = #{} :: #{Nonce :: binary() => Count :: non_neg_integer()}}).
-opaque auth() :: #auth{}.
%% Seconds for which a nonce is valid.
-define(AGE, 300).
-define(MAX_USED, 1000).

%% @doc Returns whether an address lies in one of the networks.
-spec is_in(inet:ip4_address(), [network()]) -> boolean().
is_in(Address, Networks) ->
    lists:any(fun({Network, Bits}) ->
        number(Address) bsr (32 - Bits) =:= number(Network) bsr (32 - Bits)
    end, Networks).

number({A, B, C, D}) -> (A bsl 24) bor (B bsl 16) bor (C bsl 8) bor D.

%% @doc Classifies the sender at an address. If no networks of callers are configured, every address that isn't a
%% proxy's is a caller's.
-spec sender(inet:ip4_address(), #{callers := [network()], proxies := [network()], _ => _}) ->
          proxy | caller | stranger.
sender(Address, #{callers := Callers, proxies := Proxies}) ->
    hd([proxy || is_in(Address, Proxies)] ++ [caller || Callers =:= [] orelse is_in(Address, Callers)] ++ [stranger]).

%% @doc Returns whether media may be sent to the address in an offer: it is the source of the offer, it lies in a
%% configured network, or a trusted proxy sent the offer. 0.0.0.0, which means hold, is always allowed.
-spec may_offer(Offered :: inet:ip4_address(), Source :: inet:ip4_address(),
                #{media := [network()], proxies := [network()], _ => _}) -> boolean().
may_offer({0, 0, 0, 0}, _, _) -> true;
may_offer(Source, Source, _) -> true;
may_offer(Offered, Source, #{media := Media, proxies := Proxies}) ->
    is_in(Offered, Media) orelse is_in(Source, Proxies).

%% @doc Returns a new state with a random secret. It offers and accepts only these algorithms.
-spec new([algorithm()]) -> auth().
new(Algorithms) ->
    #auth{secret = crypto:strong_rand_bytes(32), algorithms = Algorithms}.

%% @doc Checks the password digest of a request from this address. Returns the user's name, or the challenges for a 401
%% response.
-spec check(lobby_sip_message:message(), inet:ip4_address(), users(), auth()) ->
          {ok, Name :: binary(), auth()} | {challenge, [{atom(), term()}]}.
check(Request, Address, Users, Auth) ->
    Now = erlang:system_time(second),
    Given = [maps:from_list([{Key, esip:unquote(Value)} || {Key, Value} <- Params])
             || {<<"digest">>, Params} <- lobby_sip_message:headers(authorization, Request)],
    Proved = [{User, age(Nonce, Request#sip.method, Address, Auth, Now), counted(Nonce, Count, Auth)}
              || Digest = #{<<"username">> := User, <<"nonce">> := Nonce, <<"nc">> := Count} <- Given,
                 is_proved(Digest, Request, Users, Auth)],
    case Proved of
        [{User, Age, {ok, Counted}} | _] when Age >= 0, Age =< ?AGE -> {ok, User, forgotten(Now, Counted)};
        [{_, Age, _} | _] when is_integer(Age) ->
            challenges(Request, Address, Auth, Now, [{<<"stale">>, <<"true">>}]);
        _ -> challenges(Request, Address, Auth, Now, [])
    end.

%% RFC 7616, section 3.4.1. The URI in the digest must name the same room and host as the request.
is_proved(#{<<"username">> := User, <<"realm">> := <<"lobby">>, <<"nonce">> := Nonce, <<"uri">> := Uri,
            <<"qop">> := <<"auth">>, <<"nc">> := Count, <<"cnonce">> := Chosen, <<"response">> := Response} = Digest,
          Request = #sip{method = Method}, Users, #auth{algorithms = Algorithms}) when is_map_key(User, Users) ->
    Named = maps:get(<<"algorithm">>, Digest, <<"MD5">>),
    lists:any(fun(Algorithm) ->
        A1 = hash(Algorithm, [User, ":lobby:", maps:get(User, Users)]),
        A2 = hash(Algorithm, [Method, ":", Uri]),
        Right = hash(Algorithm, [A1, ":", Nonce, ":", Count, ":", Chosen, ":auth:", A2]),
        byte_size(Response) =:= byte_size(Right) andalso crypto:hash_equals(Response, Right)
            andalso is_same(Uri, Request)
    end, [Algorithm || Algorithm <- Algorithms, written(Algorithm) =:= Named]);
is_proved(_, _, _, _) ->
    false.

written(md5) -> <<"MD5">>;
written(sha256) -> <<"SHA-256">>.

hash(Algorithm, Text) ->
    string:lowercase(binary:encode_hex(crypto:hash(Algorithm, Text))).

is_same(Text, #sip{uri = #uri{user = User, host = Host}}) ->
    case catch lobby_sip_decoder:uri(Text) of #uri{user = User, host = Host} -> true; _ -> false end.

%% A request whose count is malformed, or isn't above the last one, counts as a replay.
counted(Nonce, Text, Auth = #auth{used = Used}) ->
    case {catch binary_to_integer(Text, 16), maps:get(Nonce, Used, 0)} of
        {Count, Last} when is_integer(Count), Count > Last, byte_size(Text) =:= 8 ->
            {ok, Auth#auth{used = Used#{Nonce => Count}}};
        {_, _} -> repeated
    end.

forgotten(Now, Auth = #auth{used = Used}) when map_size(Used) > ?MAX_USED ->
    IsYoung = fun(<<Time:16/binary, _/binary>>, _) -> Now - binary_to_integer(Time, 16) =< ?AGE end,
    Auth#auth{used = maps:filter(IsYoung, Used)};
forgotten(_, Auth) ->
    Auth.

challenges(#sip{method = Method}, Address, Auth, Now, More) ->
    Nonce = nonce(Now, crypto:strong_rand_bytes(8), Method, Address, Auth),
    Params = [{<<"realm">>, <<"\"lobby\"">>}, {<<"nonce">>, <<$", Nonce/binary, $">>},
              {<<"qop">>, <<"\"auth\"">>} | More],
    {challenge, [{'www-authenticate', {<<"Digest">>, [{<<"algorithm">>, written(Algorithm)} | Params]}}
                 || Algorithm <- Auth#auth.algorithms]}.

nonce(Time, Random, Method, Address, #auth{secret = Secret}) ->
    Signed = <<Time:64, Random/binary>>,
    <<Signature:16/binary, _/binary>> = crypto:mac(hmac, sha256, Secret, term_to_binary({Signed, Method, Address})),
    binary:encode_hex(<<Signed/binary, Signature/binary>>).

%% Returns the age of a nonce in seconds, or `unknown' if it wasn't made here for this address and method.
age(Nonce, Method, Address, Auth, Now) ->
    case catch binary:decode_hex(Nonce) of
        <<Time:64, Random:8/binary, _/binary>> ->
            case nonce(Time, Random, Method, Address, Auth) of Nonce -> Now - Time; _ -> unknown end;
        _ -> unknown
    end.

%% @doc Returns the proved or asserted identity of an INVITE's sender. In an admitted request, P-Asserted-Identity can
%% be trusted.
-spec identity(lobby_sip_message:message()) -> binary() | none.
identity(Invite) ->
    case lobby_sip_message:headers('p-asserted-identity', Invite) of
        %% In the URI of a telephone number, the user is empty.
        [{_, #uri{user = <<>>, host = Number}, _} | _] -> Number;
        [{_, #uri{user = User}, _} | _] -> User;
        [] -> none
    end.

%% @doc Returns the request with this asserted identity in place of any other.
-spec asserted(Name :: binary() | none, lobby_sip_message:message()) -> lobby_sip_message:message().
asserted(Name, Request = #sip{hdrs = Headers}) ->
    Others = [Header || Header = {Key, _} <- Headers, Key =/= 'p-asserted-identity'],
    Request#sip{hdrs = Others ++ [{'p-asserted-identity', [{<<>>, #uri{user = Name}, []}]} || Name =/= none]}.
