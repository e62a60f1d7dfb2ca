export default class { kind = 'nameless'; }
