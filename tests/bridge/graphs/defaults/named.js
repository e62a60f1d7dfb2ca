export let called = 0;
export default function named() { called++; return `named ${named.length}`; }
