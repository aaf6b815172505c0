%%% @doc Links with which people join from a browser. A link is signed, not stored. The store has the revoked links, and
%%% the role, mute and isolation of members who have left, so that they can't undo these by joining again.
-module(lobby_link).

-export([new/1, read/1, revoke/1, keep/2, kept/1]).
-export_type([link/0, error/0]).

%% `until': Unix time in seconds.
-type link() :: #{number := binary(), room := lobby_room:name(), role := lobby_rules:role(), name := binary(),
                  until := integer()}.
-type error() :: no_link | link_expired | link_revoked.
%% The part of a member's row that outlives the call.
-type kept() :: #{isolated := boolean(), muted := boolean(), waiting := boolean(), role := lobby_rules:role()}.
%% The maximum lifetime of a link, in seconds.
-define(MAX_SECONDS, 2678400).

%% @doc Returns a new link for a request. Throws `{invalid, Text}' if the request is malformed.
-spec new(#{binary() => term()}) -> #{number := binary(), link := binary()}.
new(Object) ->
    _ = [throw({invalid, <<"the body has the unknown key \"", Key/binary, "\"">>})
         || Key <- maps:keys(Object) -- [<<"room">>, <<"role">>, <<"name">>, <<"seconds">>]],
    [Room, Role, Name] = [lobby_json:text(Key, Object) || Key <- [<<"room">>, <<"role">>, <<"name">>]],
    Room = lobby_room:checked(Room),
    Seconds = lobby_json:number(<<"seconds">>, {1, ?MAX_SECONDS}, Object),
    _ = forget(),
    Number = hex(crypto:strong_rand_bytes(8)),
    Link = #{number => Number, room => Room, role => Role, name => Name, until => now_s() + Seconds},
    Text = iolist_to_binary(jiffy:encode(Link)),
    #{number => Number, link => iolist_to_binary([hex(Text), $., hex(signature(Text))])}.

%% @doc Returns the link in a token. Throws an `error()' if the link isn't valid.
-spec read(binary()) -> link().
read(Token) ->
    Link = #{number := Number} = checked(Token),
    _ = [throw(link_revoked) || lobby_store:has(lobby_settings, {revoked, Number})],
    Link.

checked(Token) ->
    try
        [Text, Signature] = [binary:decode_hex(Part) || Part <- binary:split(Token, <<".">>)],
        %% The comparison takes constant time, so it doesn't reveal the signature.
        true = crypto:hash_equals(Signature, signature(Text)),
        Link = #{<<"until">> := Until} = jiffy:decode(Text, [return_maps]),
        _ = [throw(link_expired) || now_s() >= Until],
        maps:from_list([{binary_to_existing_atom(Key), Is} || {Key, Is} <- maps:to_list(Link)])
    catch error:_ -> throw(no_link)
    end.

%% Signs with the secret of the SIP tags, which both nodes of a pair have. The prefix separates the two uses.
signature(Text) -> crypto:mac(hmac, sha256, lobby_sip:secret(), ["link ", Text]).

hex(Bytes) -> string:lowercase(binary:encode_hex(Bytes)).

now_s() -> erlang:system_time(second).

%% @doc Revokes a link, so that it no longer lets anyone join.
-spec revoke(Number :: binary()) -> ok.
revoke(Number) ->
    remember({revoked, Number}, true).

-spec keep(Number :: binary(), kept()) -> ok.
keep(Number, Kept) ->
    remember({link, Number}, Kept).

-spec kept(Number :: binary()) -> kept() | #{}.
kept(Number) ->
    element(2, lobby_store:get(lobby_settings, {link, Number}, {0, #{}})).

%% Stores a value for the maximum lifetime of a link.
remember(Key, Value) ->
    lobby_store:put(lobby_settings, Key, {now_s() + ?MAX_SECONDS, Value}).

forget() ->
    Known = [{Key, lobby_store:get(lobby_settings, Key, none)} || Key = {_, _} <- lobby_store:keys(lobby_settings)],
    [lobby_store:delete(lobby_settings, Key) || {Key, {Until, _}} <- Known, Until < now_s()].
