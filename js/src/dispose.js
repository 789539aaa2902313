// The symbols of `using` and `await using`. An engine without them, as Node before 18.18, gets those that compilers use in their place.
export const DISPOSE = Symbol.dispose ?? Symbol.for("Symbol.dispose");
export const ASYNC_DISPOSE = Symbol.asyncDispose ?? Symbol.for("Symbol.asyncDispose");
