declare global {
    /** The symbols of `using` and `await using`, for TypeScript before 5.2. Later ones, and Node's types, say the same. */
    interface SymbolConstructor {
        /** A method of this name frees what its object holds. */
        readonly dispose: unique symbol;
        /** A method of this name frees what its object holds, and returns a promise. */
        readonly asyncDispose: unique symbol;
    }
}

/** `Symbol.dispose`, or what compilers use in its place. */
export const DISPOSE: typeof Symbol.dispose;
/** `Symbol.asyncDispose`, or what compilers use in its place. */
export const ASYNC_DISPOSE: typeof Symbol.asyncDispose;
