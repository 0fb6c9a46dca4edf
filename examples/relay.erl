-module(relay).
-export([send/2, log/1]).

send(To, Message) ->
    log(sent),
    gen_server:cast(To, envelope(Message)).

log(What) ->
    logger:info(What, module_info()).

envelope(Message) ->
    base64:encode(term:pack(Message, version())).

version() -> 3.
