//! The module `nmt`: names only, since no comparison runs a state machine.

pub mod states {
    #[derive(Debug, Clone, Copy, PartialEq, Eq)]
    pub enum NmtState {
        NmtGsOff,
    }
}

pub mod events {
    #[derive(Debug, Clone, Copy, PartialEq, Eq)]
    pub struct NmtServiceRequest;

    #[derive(Debug, Clone, Copy, PartialEq, Eq)]
    pub enum CnNmtRequest {
        Service(NmtServiceRequest),
    }
}

pub mod cn_state_machine {
    #[derive(Debug, Default)]
    pub struct CnNmtStateMachine;

    impl super::NmtStateMachine for CnNmtStateMachine {
        fn current_state(&self) -> super::states::NmtState {
            super::states::NmtState::NmtGsOff
        }
    }
}

pub trait NmtStateMachine {
    fn current_state(&self) -> states::NmtState;
}
